//! Document 02, "Closing up wasteful tables": what is written, and that no question but for the entries looked at gets another answer.
use reference::film::*;
use reference::film_return::FilmReturn;
use reference::made::{empty_track, moov_last, movie, sound_track, spoiled, SMALL};
use reference::maker::alone::{self, moov_of};
use reference::maker::claims::claiming;
use reference::maker::quay::quay;
use reference::maker::{limits, valid, Random};
use reference::movie::atoms::{of_kind, tree};
use reference::movie::refusals::{read, read_tables};
use reference::movie::tables::{Run, TrackTables};
use reference::movie::*;
use std::collections::BTreeMap;

const STBL: &str = "moov trak mdia minf stbl";

fn path(leaf: &str) -> String {
    format!("{STBL} {leaf}")
}

/// The film with its moov written anew, which is as long as it was.
fn closed(film: &[u8]) -> Vec<u8> {
    let at = of_kind(&tree(film).unwrap(), b"moov")[0].place.at;
    let mut room = vec![9; film.len()];
    let (number, length) = compact(film, &mut room);
    assert_eq!(number, 0);
    let length = usize::try_from(length).unwrap();
    // "An accepted answer fills the first places and leaves the rest."
    assert!(room[length..].iter().all(|byte| *byte == 9));
    [&film[..at], &room[..length], &film[at + length..]].concat()
}

/// W's samples with a run for each, in three chunks: two entries of stts are too many, and one of stsc.
fn wasteful() -> Track {
    Track {
        stts: vec![(1, 24), (1, 24), (1, 24), (1, 48)],
        stsc: vec![(1, 1, 1), (2, 1, 1), (3, 2, 1)],
        stco: vec![1000, 1100, 1150],
        ..w_track()
    }
}

fn film(track: Track) -> Node {
    movie(&[track]).file_of(4096)
}

/// A free atom of so many bytes.
fn free(bytes: usize) -> Node {
    atom("free", &vec![0; bytes - 8])
}

/// Closing up the film gives the film after a change, and that again.
#[track_caller]
fn becomes(mut film: Node, change: impl Fn(&mut Node)) {
    let before = film.bytes();
    change(&mut film);
    let after = film.bytes();
    assert_eq!(closed(&before), after);
    assert_eq!(closed(&after), after);
    assert_eq!((refusal(&before), before.len()), (0, after.len()));
}

/// What becomes of the one track of `wasteful`.
fn compact_wasteful(film: &mut Node) {
    film.replace(&path("stts"), stts(&[(3, 24), (1, 48)]));
    film.replace(&path("stsc"), stsc(&[(1, 1, 1), (3, 2, 1)]));
    film.push(STBL, free(2 * 8 + 12));
}

#[test]
fn w_stays_as_it_is() {
    becomes(w(), |_| ());
    becomes(film(empty_track(1)), |_| ());
    becomes(movie(&[]).file(), |_| ());
}

#[test]
fn the_bytes_freed_become_one_free_atom() {
    becomes(film(wasteful()), compact_wasteful);
    // An entry of stts alone is the least there can be, one of stsc 12 bytes.
    becomes(film(Track { stts: vec![(2, 24), (1, 24), (1, 48)], ..w_track() }), |film| {
        film.replace(&path("stts"), stts(&[(3, 24), (1, 48)]));
        film.push(STBL, free(8));
    });
    becomes(film(Track { stsc: vec![(1, 2, 1), (2, 2, 1)], ..w_track() }), |film| {
        film.replace(&path("stsc"), stsc(&[(1, 2, 1)]));
        film.push(STBL, free(12));
    });
}

#[test]
fn what_deals_out_other_samples_stays() {
    // Another duration between, and another description of as many samples.
    becomes(film(Track { stts: vec![(1, 24), (1, 0), (1, 24), (1, 48)], ..w_track() }), |_| ());
    let two = Track { descriptions: vec![picture(1, 1); 2], stsc: vec![(1, 2, 1), (2, 2, 2)], ..w_track() };
    becomes(film(two), |_| ());
    // Samples of no duration are dealt out too.
    becomes(film(Track { stts: vec![(1, 0), (1, 0), (2, 24)], ..w_track() }), |film| {
        film.replace(&path("stts"), stts(&[(2, 0), (2, 24)]));
        film.push(STBL, free(8));
    });
    // Only these two tables are closed up.
    let other = Track {
        ctts: Some(vec![(1, 5), (1, 5), (2, 5)]),
        edits: Some(vec![(1, -1, 65536), (1, -1, 65536)]),
        stsz: Sizes::Each(vec![7; 4]),
        ..w_track()
    };
    becomes(film(other), |_| ());
}

#[test]
fn a_run_for_every_sample() {
    let n = 3000;
    let track = Track {
        stts: vec![(1, 24); 3000],
        stsc: (1..=n).map(|chunk| (chunk, 1, 1)).collect(),
        stsz: Sizes::Common(2, n),
        stco: vec![0; 3000],
        ..w_track()
    };
    becomes(film(track), |film| {
        film.replace(&path("stts"), stts(&[(n, 24)]));
        film.replace(&path("stsc"), stsc(&[(1, 1, 1)]));
        film.push(STBL, free(2999 * 20));
    });
}

#[test]
fn all_else_is_copied_in_order() {
    let mut film = film(wasteful());
    // Flags, another order of the children, and what is skipped, older free atoms among it: one of them last.
    film.at(&path("stts")).body[1..4].copy_from_slice(&[1, 2, 3]);
    film.at(&path("stsc")).body[1..4].copy_from_slice(&[4, 5, 6]);
    film.at(STBL).children.reverse();
    film.insert_before(&path("stsc"), atom("free", &[7; 5]));
    film.insert_after(&path("stsc"), atom("udta", &[8; 3]));
    film.push(STBL, atom("free", &[0; 9]));
    film.push("moov", atom("free", &[1; 2]));
    // Tables and containers in the wrong place are leaves.
    let tables = [stts(&[(1, 24), (1, 24)]), stsc(&[(1, 1, 1), (2, 1, 1)])];
    film.push("moov trak mdia minf", tables[0].clone());
    film.push("moov trak", container("stbl", tables.to_vec()));
    film.push("", tables[1].clone());
    becomes(film, |film| {
        let flags = |film: &mut Node, leaf: &str| film.at(&path(leaf)).body[1..4].to_vec();
        let (first, second) = (flags(film, "stts"), flags(film, "stsc"));
        compact_wasteful(film);
        film.at(&path("stts")).body[1..4].copy_from_slice(&first);
        film.at(&path("stsc")).body[1..4].copy_from_slice(&second);
    });
}

#[test]
fn each_track_has_its_own_free_atom() {
    let tracks = [wasteful(), Track { id: 2, ..w_track() }, Track { id: 3, ..wasteful() }, sound_track(4, [0, 0, 0])];
    becomes(movie(&tracks).file_of(4096), |film| {
        compact_wasteful(film);
        let third = "moov trak:2 mdia minf stbl";
        film.replace(&format!("{third} stts"), stts(&[(3, 24), (1, 48)]));
        film.replace(&format!("{third} stsc"), stsc(&[(1, 1, 1), (3, 2, 1)]));
        film.push(third, free(28));
    });
}

#[test]
fn the_moov_keeps_its_header_and_place() {
    for size in [Size::True, Size::Wide] {
        let mut first = film(wasteful());
        first.at("moov").size = size;
        becomes(first.clone(), compact_wasteful);
        first.children.reverse();
        becomes(first, compact_wasteful);
    }
    // "size 0 means up to the end of the file"
    let mut last = film(wasteful());
    last.children.reverse();
    last.at("moov").size = Size::Says(0);
    becomes(last, compact_wasteful);
    becomes(moov_last(), |_| ());
}

#[test]
fn refusals_are_the_files_then_16() {
    for size in [Size::True, Size::Wide] {
        let mut film = film(wasteful());
        film.at("moov").size = size;
        let length = film.at("moov").bytes().len();
        for short in [0, 1, length - 1] {
            let mut room = vec![9; short];
            assert_eq!(compact(&film.bytes(), &mut room), (16, 0));
            assert_eq!(room, vec![9; short]);
        }
        let mut room = vec![9; length + 1];
        assert_eq!(compact(&film.bytes(), &mut room), (0, u64::try_from(length).unwrap()));
        assert_eq!(room[length], 9);
    }
    for (number, name, film) in spoiled(&w_track(), |track| movie(&[track]).file_of(SMALL)) {
        let film = film.bytes();
        for length in [0, film.len()] {
            let mut room = vec![9; length];
            assert_eq!(compact(&film, &mut room), (number, 0), "{name}");
            assert_eq!(room, vec![9; length], "{name}");
        }
    }
    // The default: another mdhd duration is no refusal here.
    becomes(film(Track { duration: 121, ..wasteful() }), compact_wasteful);
}

/// The answers to every question, but for the entries looked at. The questions follow from the seed.
fn answers(film: &[u8], seed: u64) -> Vec<String> {
    let mut random = Random::new(seed);
    let movie = read(film).unwrap();
    let mut all = vec![listing(film), format!("{:?} {:?}", movie.track_list(), quay_fault(film))];
    all.push(format!("{} {:?}", strict_refusal(film), movie.stored_profile(0)));
    let mut filed = FilmReturn::default();
    filed.file(film);
    all.push(filed.lines());
    for track in &movie.tracks {
        let id = u32::try_from(track.tables.id).unwrap();
        all.push(format!("{:?} {:?}", movie.stored_profile(id), movie.profile_fault(id)));
        for n in 0..=u32::try_from(track.samples.len()).unwrap() + 1 {
            all.push(format!("{:?}", movie.sample(id, n)));
        }
        for code in
            [b"avvb", b"avab", b"mvbr", b"mabr", b"vfps", b"tvsz", b"vfmt"].map(|code| u32::from_be_bytes(*code))
        {
            all.push(format!("{:?} {:?}", movie.feature(id, code), movie.peak(id, code)));
        }
        for _ in 0..12 {
            let mut time = || random.bits() % (track.total + 2);
            let (a, b) = (time(), time());
            all.push(format!("{:?}", movie.sample_at(id, a).map(|(n, _)| n)));
            all.push(format!("{:?} {:?}", movie.media_time(id, a), movie.stretch(id, a, b)));
            if let [Ok(a), Ok(b)] = [a, b].map(u32::try_from) {
                all.push(format!("{:?}", movie.slip(id, a, b)));
            }
        }
    }
    all
}

/// Closing up changes no answer, and twice is once. Answers whether it changed the film.
fn keeps_answers(film: &[u8], seed: u64) -> bool {
    let after = closed(film);
    assert!(answers(film, seed) == answers(&after, seed), "film {seed}");
    assert!(closed(&after) == after, "film {seed}");
    after != film
}

#[test]
fn every_question_gets_the_same_answer() {
    let mut changed = [0; 3];
    for index in 0..250 {
        let films = [valid, claiming, quay].map(|make| make(&mut Random::of(13, index)));
        for (film, changed) in films.iter().zip(&mut changed) {
            *changed += u32::from(keeps_answers(film, index));
        }
    }
    assert!(changed.iter().all(|films| *films > 100), "{changed:?}");
}

/// What is written of a film, by either way in.
fn written(film: &(impl Film + ?Sized)) -> Vec<u8> {
    let mut room = vec![9; film.lent().bytes.len()];
    let (number, length) = compact(film, &mut room);
    assert_eq!(number, 0);
    room.truncate(usize::try_from(length).unwrap());
    room
}

#[test]
fn a_moov_alone_is_written_as_in_its_file() {
    let films = (0..250).map(|index| valid(&mut Random::of(14, index)));
    let mut compared = 0;
    for film in films {
        let moov = moov_of(&film).unwrap();
        // A co64 beside the stco is refused 3 by the moov alone.
        if refusal(&moov) == 0 {
            assert_eq!(written(&film), written(&moov));
            compared += 1;
        }
    }
    assert!(compared > 150, "{compared}");
}

#[test]
fn films_that_are_too_long_to_be_lent_whole() {
    let mut changed = 0;
    for index in 0..250 {
        let film = alone::valid(&mut Random::of(15, index));
        let after = MoovAlone { moov: written(&film), length: film.length };
        let samples = |film: &MoovAlone<Vec<u8>>| {
            read(film).unwrap().tracks.into_iter().map(|track| track.samples).collect::<Vec<_>>()
        };
        assert_eq!(samples(&after), samples(&film));
        assert_eq!((written(&after), strict_refusal(&after)), (after.moov.clone(), strict_refusal(&film)));
        assert_eq!(compact_film(&film), Ok(after.moov.clone()));
        changed += u32::from(after != film);
    }
    assert!(changed > 100, "{changed}");
}

/// The one track's tables of a film.
fn tables(film: &[u8]) -> TrackTables {
    read_tables(film.lent()).unwrap().1.tracks[0].clone()
}

#[test]
fn films_of_many_samples() {
    // A million chunks of one sample with the same entry, and as many entries of each table as there can be: only stsc is wasteful there.
    for which in [2, 4] {
        let film = limits::limit(&mut Random::new(13), which);
        let after = closed(&film);
        let (old, new) = (tables(&film), tables(&after));
        assert_eq!((new.stsc.len(), &new.stts), (1, &old.stts));
        assert!(closed(&after) == after);
    }
}

/// Every list of entries, each with one of the values, for so many things: which of them begin an entry, and its value.
fn all_tables<T: Copy>(things: u32, values: &[T]) -> Vec<Vec<(u32, T)>> {
    let mut tables: Vec<Vec<(u32, T)>> = vec![vec![]];
    for thing in 1..=things {
        let mut longer = Vec::new();
        for table in tables {
            longer.extend(values.iter().map(|value| [&table[..], &[(thing, *value)]].concat()));
            // The first of them begins an entry in any case.
            if thing > 1 {
                longer.push(table);
            }
        }
        tables = longer;
    }
    tables
}

/// The value of each thing.
fn expansion<T: Copy>(table: &[(u32, T)], things: u32) -> Vec<T> {
    (1..=things).map(|thing| table.iter().rfind(|(first, _)| *first <= thing).unwrap().1).collect()
}

/// Every table of up to four things is closed up to one of the same expansion, and no table of that expansion is shorter.
fn fewest<T: Copy + Ord + std::fmt::Debug>(values: &[T], close: impl Fn(&[(u32, T)], u32) -> Vec<(u32, T)>) {
    for things in 0..=4 {
        let tables = all_tables(things, values);
        let mut least: BTreeMap<Vec<T>, usize> = BTreeMap::new();
        for table in &tables {
            let length = least.entry(expansion(table, things)).or_insert(table.len());
            *length = table.len().min(*length);
        }
        for table in &tables {
            let after = close(table, things);
            assert_eq!(expansion(&after, things), expansion(table, things));
            assert_eq!(after.len(), least[&expansion(table, things)], "{table:?}");
        }
    }
}

#[test]
fn no_shorter_stts() {
    fewest(&[0, 1, 7], |table, samples| {
        let ends = table.iter().skip(1).map(|(first, _)| *first).chain([samples + 1]);
        let stts = table.iter().zip(ends).map(|((first, duration), end)| (end - first, *duration)).collect();
        let (stsc, stco) = if samples == 0 { (vec![], vec![]) } else { (vec![(1, samples, 1)], vec![0]) };
        let track = Track { stts, stsc, stsz: Sizes::Common(3, samples), stco, ..w_track() };
        let after = tables(&closed(&film(track).bytes())).stts;
        let mut first = 1;
        let mut entries = Vec::new();
        for (count, duration) in after {
            entries.push((first, u32::try_from(duration).unwrap()));
            first += u32::try_from(count).unwrap();
        }
        entries
    });
}

#[test]
fn no_shorter_stsc() {
    fewest(&[(1, 1), (1, 2), (2, 1), (2, 2)], |table, chunks| {
        let samples: u32 = expansion(table, chunks).iter().map(|(samples, _)| samples).sum();
        let track = Track {
            descriptions: vec![picture(1, 1); 2],
            stts: if samples == 0 { vec![] } else { vec![(samples, 5)] },
            stsc: table.iter().map(|(first, (samples, id))| (*first, *samples, *id)).collect(),
            stsz: Sizes::Common(3, samples),
            stco: vec![0; usize::try_from(chunks).unwrap()],
            ..w_track()
        };
        let after = tables(&closed(&film(track).bytes())).stsc;
        let short = |n: u64| u32::try_from(n).unwrap();
        let entry = |run: &Run| (short(run.first_chunk), (short(run.samples_per_chunk), short(run.description_id)));
        after.iter().map(entry).collect()
    });
}
