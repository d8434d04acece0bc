//! Refused 6: "over 16 tracks, or in one track over 1,048,576 samples or chunks, 256 edits or 64 descriptions; in one profile over 64 records";
//! document 02: "6 over 64 references"; and films with as many as are allowed. Chunks are left out, since 1,048,577 of them need 4 MB.
use super::base::*;
use reference::film::*;

/// So many tracks without samples.
fn tracks(n: u32) -> Vec<Track> {
    (1..=n).map(|id| Track { id, subtype: *b"text", ..empty_track(1) }).collect()
}

fn samples(films: &mut Films) {
    let common = |size, n| Track { stsz: Sizes::Common(size, n), ..small_track() };
    films.track(6, "1048577-samples", common(1, 1_048_577));
    films.track(6, "2-31-samples", common(1, 1 << 31));
    films.track(6, "2-32-less-one-samples", common(u32::MAX, u32::MAX));
    // As many as are allowed, a byte each: 512 chunks of 2,048 samples, all at the beginning of the file.
    let most = Track {
        duration: 1_048_576,
        stts: vec![(1_048_576, 1)],
        stsc: vec![(1, 2048, 1)],
        stco: vec![0; 512],
        ..common(1, 1_048_576)
    };
    films.track(0, "1048576-samples", most.clone());
    films.track(6, "1048577-samples-of-1048576", Track { stsz: Sizes::Common(1, 1_048_577), ..most });
}

pub fn films(films: &mut Films) {
    films.node(0, "16-traks", movie(&tracks(16)));
    films.node(6, "17-traks", movie(&tracks(17)));
    films.node(0, "16-traks-and-misplaced-ones", {
        let mut film = movie(&tracks(16));
        film.push("", atom("trak", &[9]));
        film.push("moov trak", atom("trak", &[9]));
        film
    });
    samples(films);
    let edits = |n| Track { edits: Some(vec![(1, -1, 65536); n]), ..empty_track(1) };
    films.track(0, "256-edits", edits(256));
    films.track(6, "257-edits", edits(257));
    let described =
        |subtype, size, n| Track { subtype, descriptions: vec![description(b"form", size); n], ..small_track() };
    films.track(0, "64-descriptions-in-vide", described(*b"vide", 36, 64));
    films.track(6, "65-descriptions-in-vide", described(*b"vide", 36, 65));
    films.track(0, "64-descriptions-in-soun", described(*b"soun", 16, 64));
    films.track(6, "65-descriptions-in-soun", described(*b"soun", 16, 65));
    let referring = |n| Track { references: vec![this_file(); n], ..small_track() };
    films.track(0, "64-references", referring(64));
    films.track(6, "65-references", referring(65));
    films.node(6, "65-references-in-last-of-two-traks", movie(&[small_track(), Track { id: 2, ..referring(65) }]));
    let records = |n: usize| vec![[0, 1, 2, 3]; n];
    for (number, n) in [(0, 64), (6, 65)] {
        let profile = Some(records(n));
        films.node(
            number,
            &format!("{n}-records-in-moov"),
            Movie { profile, tracks: vec![small_track()], ..w_movie() }.file(),
        );
        films.track(number, &format!("{n}-records-in-trak"), Track { profile: Some(records(n)), ..small_track() });
    }
    films.track(6, "65-records-of-which-one-has-code-zero", {
        let mut records = records(65);
        records[7][2] = 0;
        Track { profile: Some(records), ..small_track() }
    });
    films.small(0, "65-records-of-version-one", |film| {
        let mut profile = prfl(&records(65));
        profile.body[0] = 1;
        film.insert_before("moov mvhd", profile);
    });
    films.small(0, "65-records-after-mvhd", |film| film.insert_after("moov mvhd", prfl(&records(65))));
    films.small(0, "65-records-in-a-second-prfl", |film| {
        film.insert_before("moov mvhd", prfl(&records(1)));
        film.insert_before("moov mvhd", prfl(&records(65)));
    });
    films.node(0, "64-records-in-moov-and-in-trak", {
        let track = Track { profile: Some(records(64)), ..small_track() };
        Movie { profile: Some(records(64)), tracks: vec![track], ..w_movie() }.file()
    });
    films.node(6, "257-edits-in-last-of-two-traks", movie(&[small_track(), Track { id: 2, ..edits(257) }]));
    films.node(6, "1048577-samples-in-first-of-two-traks", {
        movie(&[Track { stsz: Sizes::Common(1, 1_048_577), ..small_track() }, sound_track()])
    });
    // Limits are one track's, not the file's.
    films.node(0, "200-edits-in-each-of-two-traks", movie(&[edits(200), Track { id: 2, ..edits(200) }]));
}
