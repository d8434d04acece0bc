//! Whole files asked by their moov alone, and films that only the second way can have: document 02, "Films above two gigabytes".
use reference::film::*;
use reference::hoses::two_hoses;
use reference::made::moov_last;
use reference::maker::alone::{self, moov_of};
use reference::maker::movies::movie_of;
use reference::maker::{self, slips, Random};
use reference::movie::refusals::{read, read_strictly};
use reference::movie::tables::Movie as Written;
use reference::movie::*;
use reference::slip::{read_any_slip, read_slip, MALFORMED};
use std::collections::BTreeSet;

/// A film's track IDs, and others.
fn ids(movie: &Written) -> Vec<u32> {
    let all = movie.tracks.iter().map(|track| u32::try_from(track.tables.id).unwrap());
    all.chain([0, 7, u32::MAX]).collect()
}

/// Numbers of samples, and times, that a film has, and others.
fn numbers(movie: &Written) -> BTreeSet<u32> {
    let mut all = BTreeSet::from([0, 1, 2, 3, 4, 5, 23, 24, 72, 73, 119, 120, u32::MAX]);
    for track in &movie.tracks {
        let n = u64::try_from(track.samples.len()).unwrap();
        let some = [n, n + 1, track.total / 2, track.total.max(1) - 1, track.total];
        all.extend(some.map(|n| u32::try_from(n).unwrap()));
    }
    all
}

/// A stretch and its pairs, by either way.
fn stretch_by<F: Film + ?Sized>(film: &F, id: u32, a: u32, b: u32) -> ((u32, (u64, u64)), Vec<u64>)
where
    F::Number: Clone + Default + Into<u64>,
{
    let mut room = vec![F::Number::default(); 200];
    let answer = stretch(film, id, a, b, &mut room);
    (answer, room.into_iter().map(Into::into).collect())
}

fn slip_by(film: &(impl Film + ?Sized), id: u32, a: u32, b: u32) -> ((u32, u64), Vec<u8>) {
    let mut room = vec![9; 1000];
    (write_slip(film, id, a, b, &mut room), room)
}

fn list_by(ask: impl Fn(&mut [u32]) -> (u32, u64)) -> ((u32, u64), Vec<u32>) {
    let mut room = vec![9; 200];
    (ask(&mut room), room)
}

const CODES: [&[u8; 4]; 7] = [b"avvb", b"avab", b"tvsz", b"vfps", b"mvbr", b"mabr", b"none"];

/// Asks every question by both ways, but for sample bytes, which "aren't offered".
fn asked_by_both_ways(file: &[u8]) {
    let moov = moov_of(file).unwrap();
    let movie = read(file).unwrap();
    let numbers = &numbers(&movie);
    assert_eq!(list_by(|room| track_list(file, room)), list_by(|room| track_list(&moov, room)));
    for id in ids(&movie) {
        assert_eq!(list_by(|room| stored_profile(file, id, room)), list_by(|room| stored_profile(&moov, id, room)));
        for code in CODES.map(|code| u32::from_be_bytes(*code)) {
            assert_eq!(feature(file, id, code), feature(&moov, id, code));
            assert_eq!(peak(file, id, code), peak(&moov, id, code));
        }
        for n in numbers {
            assert_eq!(sample(file, id, *n), sample(&moov, id, *n));
            assert_eq!(sample_at(file, id, *n), sample_at(&moov, id, *n));
            assert_eq!(media_time(file, id, *n), media_time(&moov, id, *n));
            assert_eq!(start_at(file, id, *n), start_at(&moov, id, *n));
            let position = Position { id, next: *n };
            assert_eq!(step(file, position), step(&moov, position));
        }
        for (a, b) in numbers.iter().flat_map(|a| numbers.iter().map(move |b| (*a, *b))) {
            assert_eq!(stretch_by(file, id, a, b), stretch_by(&moov, id, a, b));
            assert_eq!(slip_by(file, id, a, b), slip_by(&moov, id, a, b));
        }
    }
}

#[test]
fn known_films_have_the_same_answers() {
    let edited = Track { edits: Some(vec![(60, -1, 65536), (60, 24, 65536)]), ..w_track() };
    let off = Track { duration: 121, ..w_track() };
    let with = |track| Movie { tracks: vec![track], ..w_movie() }.file_of(4096);
    for film in [w(), with(edited), with(off), moov_last(), two_hoses()] {
        asked_by_both_ways(&film.bytes());
    }
    let bytes = w().bytes();
    assert_eq!(moov_of(&bytes).unwrap(), MoovAlone { moov: &w_movie().moov().bytes()[..], length: 4096 });
}

/// In a whole file a co64 is skipped, and here it isn't.
fn has_co64(bytes: &[u8]) -> bool {
    bytes.windows(4).any(|four| four == b"co64")
}

#[test]
fn made_films_have_the_same_answers() {
    let (mut read_alike, mut asked) = (0, 0);
    for index in 0..2000 {
        let bytes = maker::valid(&mut Random::of(41, index));
        let moov = moov_of(&bytes).unwrap();
        if has_co64(moov.moov) {
            continue;
        }
        // What is written out is the same, and every question is asked of that; the small films are asked too.
        let movie = read_strictly(&moov).unwrap();
        assert_eq!(Ok(&movie), read_strictly(&bytes).as_ref(), "film {index}");
        read_alike += 1;
        if bytes.len() < 2000 && asked < 10 {
            asked_by_both_ways(&bytes);
            asked += 1;
        }
    }
    assert!(read_alike > 1000 && asked == 10, "{read_alike}, {asked}");
}

#[test]
fn made_films_have_the_same_refusals_from_4_on() {
    let mut met = BTreeSet::new();
    for index in 0..3000 {
        let bytes = maker::film(&mut Random::of(42, index));
        let number = strict_refusal(&bytes);
        // Refusals 2 and 3 may be those of what is not lent here.
        if let Some(moov) = moov_of(&bytes).filter(|moov| number != 2 && number != 3 && !has_co64(moov.moov)) {
            assert_eq!(read_strictly(&moov), read_strictly(&bytes), "film {index}");
            assert_eq!(read(&moov), read(&bytes), "film {index}");
            met.insert(number);
        }
    }
    assert_eq!(met, [0].into_iter().chain(4..=13).chain([19]).collect());
}

#[test]
fn the_same_offsets_in_co64_have_the_same_answers() {
    for index in 0..1000 {
        let mut random = Random::of(43, index);
        let mut movie = movie_of(&mut random, 2, false);
        for track in &mut movie.tracks {
            track.stco.iter_mut().for_each(|offset| *offset = random.number());
        }
        let (narrow, mut wide) = (movie.moov(), movie.moov());
        for (i, track) in movie.tracks.iter().enumerate() {
            let offsets: Vec<u64> = track.stco.iter().map(|offset| u64::from(*offset)).collect();
            wide.replace(&format!("trak:{i} mdia minf stbl stco"), co64(&offsets));
        }
        let [narrow, wide] = [narrow, wide].map(|moov| MoovAlone { moov: moov.bytes(), length: 1 << 40 });
        let mut read_wide = read(&wide).unwrap();
        for track in &mut read_wide.tracks {
            assert_eq!(track.tables.offset_table, *b"co64");
            track.tables.offset_table = *b"stco";
        }
        assert_eq!(Ok(read_wide), read(&narrow), "film {index}");
    }
}

/// The pairs of a stretch, which the maker's films of many chunks have at most.
const PAIRS: usize = 4000;

#[test]
fn slips_of_both_forms_are_written_and_read_back() {
    let mut met = [0; 2];
    for index in 0..1500 {
        let mut random = Random::of(44, index);
        let film = alone::valid(&mut random);
        let movie = read(&film).unwrap();
        for track in movie.tracks.iter().filter(|track| track.total > 0) {
            let [id, total] = [track.tables.id, track.total].map(|n| u32::try_from(n).unwrap());
            let a = random.up_to(total - 1);
            let b = a + 1 + random.up_to(total - a - 1);
            let slip = movie.slip(id, a, b).unwrap();
            let stretch = movie.stretch(id, u64::from(a), u64::from(b)).unwrap();
            let numbers: Vec<u64> = stretch.pairs.iter().flat_map(|(offset, length)| [*offset, *length]).collect();
            let is_wide = numbers.iter().any(|n| *n >= 1 << 32);
            let mut pairs = vec![0; 2 * PAIRS];
            let (refusal, head, place) = read_any_slip(&slip, &mut pairs);
            assert_eq!((refusal, place, head.id, head.a, head.b), (0, 0, u64::from(id), u64::from(a), u64::from(b)));
            assert_eq!((head.scale, &pairs[..numbers.len()]), (track.tables.scale, &numbers[..]));
            // "the old reader refuses form 2 by 17"
            let (old, _, place) = read_slip(&slip, &mut vec![0; 2 * PAIRS]);
            assert_eq!((slip[0], old, place), if is_wide { (2, MALFORMED, 0) } else { (1, 0, 0) });
            met[usize::from(is_wide)] += 1;
        }
    }
    assert!(met.iter().all(|times| *times > 200), "{met:?}");
}

#[test]
fn whole_files_give_form_1() {
    for index in 0..500 {
        let mut random = Random::of(45, index);
        let movie = read(&maker::valid(&mut random)).unwrap();
        for track in movie.tracks.iter().filter(|track| track.total > 0) {
            let [id, total] = [track.tables.id, track.total].map(|n| u32::try_from(n).unwrap());
            assert_eq!(movie.slip(id, 0, total).unwrap()[0], 1);
        }
    }
}

#[test]
fn steps_through_films_above_two_gigabytes() {
    let mut wide = 0;
    for index in 0..200 {
        let movie = read(&alone::valid(&mut Random::of(46, index))).unwrap();
        for track in movie.tracks.iter().filter(|track| !track.samples.is_empty()) {
            let id = u32::try_from(track.tables.id).unwrap();
            let mut position = movie.start_at(id, 1).unwrap();
            for n in (1..).take(track.samples.len()) {
                let sample = movie.sample(id, n).unwrap();
                let moved = Position { id, next: n + 1 };
                assert_eq!(movie.step(position), Step::Next(sample, moved));
                wide += u32::from(sample.offset >= 1 << 32);
                position = moved;
            }
            assert_eq!(movie.step(position), Step::Done);
        }
    }
    assert!(wide > 1000, "{wide}");
}

#[test]
fn made_moovs_are_what_they_are_meant_to_be() {
    let mut tables = BTreeSet::new();
    for index in 0..2000 {
        let movie = read_strictly(&alone::valid(&mut Random::of(47, index))).map_err(|number| (index, number)).unwrap();
        tables.extend(movie.tracks.iter().map(|track| track.tables.offset_table));
    }
    assert_eq!(tables, [*b"stco", *b"co64"].into());
    let met: BTreeSet<u32> = (0..5000).map(|index| strict_refusal(&alone::film(&mut Random::of(48, index)))).collect();
    assert_eq!(met, (0..=13).chain([19]).collect());
}

#[test]
fn made_slips_of_form_2_are_accepted_and_malformed() {
    let mut random = Random::new(49);
    let mut met = BTreeSet::new();
    for _ in 0..3000 {
        let slip = slips::wide_slip(&mut random);
        let (refusal, _, place) = read_any_slip(&slip, &mut [0; 20]);
        met.insert((refusal, place.min(1)));
    }
    assert_eq!(met, [(0, 0), (MALFORMED, 0), (MALFORMED, 1)].into());
}
