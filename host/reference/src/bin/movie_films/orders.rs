//! Films with several faults: "The answer is the lowest number that applies; each condition is judged on files that pass all lower ones."
//! Document 02: "19, data elsewhere or no such entry, judged after 11 and before 12".
use super::base::*;
use reference::film::*;

/// The numbers of the tables in the order in which they are judged.
const JUDGED: [u32; 8] = [7, 8, 9, 10, 11, 19, 12, 13];

/// Gives a track the fault of one of these. Each changes another field, so that a track can have them all.
fn spoil(track: &mut Track, number: u32) {
    match number {
        7 => track.id = 0,
        8 => track.scale = 0,
        9 => track.stsc = vec![],
        10 => track.stts = vec![(4, 1 << 30)],
        11 => track.duration = 7,
        19 => track.references = vec![],
        12 => track.stco[1] = 99_999,
        13 => track.edits = edits(&[]),
        _ => panic!("{number}"),
    }
}

fn spoiled(id: u32, numbers: &[u32]) -> Track {
    let mut track = track(id);
    for number in numbers {
        spoil(&mut track, *number);
    }
    track
}

/// A film whose first fault has that number, and the next that one: of 11, which is not the default, the next is.
fn tracks_of(films: &mut Films, low: u32, next: u32, name: &str, tracks: &[Track]) {
    if low == 11 {
        films.tracks(next, &format!("11-{name}"), tracks).strictly_11();
    } else {
        films.tracks(low, name, tracks);
    }
}

/// The later number in the first track and in the last, the earlier between: neither the first nor the last fault that is met is the answer.
fn between(films: &mut Films) {
    for (place, low) in JUDGED.into_iter().enumerate() {
        for high in JUDGED.into_iter().skip(place + 1) {
            let all = [spoiled(1, &[high]), spoiled(2, &[low]), spoiled(3, &[high])];
            tracks_of(films, low, high, &format!("between-{high}-and-{high}"), &all);
        }
    }
}

/// Different rules broken in different tracks, the first in the last or in the first.
fn ends(films: &mut Films) {
    for (low, high) in [(7, 9), (10, 13), (11, 13), (11, 19), (19, 12), (19, 13), (12, 13)] {
        let all = [spoiled(1, &[high]), spoiled(2, &[low])];
        tracks_of(films, low, high, &format!("in-the-last-and-{high}-in-the-first"), &all);
    }
    let rising: Vec<Track> = JUDGED.map(|number| spoiled(number, &[number])).to_vec();
    films.tracks(7, "to-13-from-the-first-track-to-the-last", &rising);
    films.tracks(8, "to-13-from-the-first-track-to-the-last", &rising[1..]);
    let falling: Vec<Track> = rising.iter().rev().cloned().collect();
    films.tracks(7, "to-13-from-the-last-track-to-the-first", &falling);
}

fn in_one_track(films: &mut Films) {
    for (place, two) in JUDGED.windows(2).enumerate() {
        tracks_of(films, two[0], two[1], "to-13-in-one-track", &[spoiled(1, &JUDGED[place..])]);
    }
}

/// What is the movie's own beside what is a track's: an ID that occurs twice, and the movie's time scale.
fn of_the_movie(films: &mut Films) {
    for high in [8, 9, 13] {
        films.tracks(7, &format!("id-twice-and-{high}-in-the-first"), &[spoiled(1, &[high]), track(1)]);
    }
    films.node(7, "id-twice-and-movie-scale-zero", scaled(0, &[track(1), track(1)]));
    films.node(7, "id-zero-in-the-last-and-movie-scale-zero", scaled(0, &[track(1), track(0)]));
    for high in [9, 12, 13] {
        films.node(8, &format!("movie-scale-zero-and-{high}-in-a-track"), scaled(0, &[spoiled(1, &[high])]));
    }
}

/// What the tree and the leaves are refused for comes before all that the tables are.
fn below(films: &mut Films) {
    let all = [spoiled(1, &JUDGED[1..]), track(2), track(2)];
    let with = |change: fn(&mut Node)| {
        let mut film = movie(&all);
        change(&mut film);
        film
    };
    films.node(2, "in-the-last-track-and-7-to-13", with(|film| film.at("moov trak:2").tail = vec![0; 3]));
    films.node(3, "in-the-last-track-and-7-to-13", with(|film| film.remove("moov trak:2 mdia minf stbl stco")));
    films.node(4, "in-the-last-track-and-7-to-13", with(|film| film.at("moov trak:2 mdia mdhd").body[0] = 1));
    films.node(5, "in-the-last-track-and-7-to-13", with(|film| film.resize("moov trak:2 tkhd", 83)));
    films.tracks(6, "17-tracks-of-one-id-and-scale-zero", &vec![Track { scale: 0, ..empty_track(1) }; 17]);
    films.tracks(6, "65-descriptions-in-the-last-and-7-in-the-first", &{
        [track(0), Track { descriptions: vec![picture(1, 1); 65], ..track(2) }]
    });
}

pub fn films(films: &mut Films) {
    between(films);
    ends(films);
    in_one_track(films);
    of_the_movie(films);
    below(films);
}
