//! What crates/return_vectors is run on, and its lines, from the reference: films filed, and then returns joined.
//!
//! Writes the films to the folder that is its first argument and their names to the file that is its second, and prints the lines.
use reference::film::*;
use reference::film_return::FilmReturn;

const GREATEST: u128 = (1 << 64) - 1;

/// So many tracks, each of a scale of its own.
fn scales(count: u32, first: u32) -> Vec<u8> {
    let track = |i| Track { id: i + 1, scale: first + i, stco: vec![0, 8], ..w_track() };
    Movie { tracks: (0..count).map(track).collect(), ..w_movie() }.file().bytes()
}

/// The films by name: W, one that is refused, 16 scales, and one scale that is met already in the states of scales 1 and on.
fn films() -> Vec<(&'static str, Vec<u8>)> {
    vec![
        ("w.mov", w().bytes()),
        ("empty.mov", vec![]),
        ("16-scales.mov", scales(16, 1000)),
        ("scale-16.mov", scales(1, 16)),
    ]
}

fn with_scales(count: u64, accepted: u128) -> FilmReturn {
    FilmReturn { accepted, scales: (1..=count).map(|scale| (scale, 0)).collect(), ..FilmReturn::default() }
}

fn with_units(units: u128) -> FilmReturn {
    FilmReturn { scales: vec![(600, units)], ..FilmReturn::default() }
}

fn with_greatest(i: usize) -> FilmReturn {
    let mut all = FilmReturn::default();
    match i {
        0 => all.accepted = GREATEST,
        1..=14 => all.refused[i - 1] = GREATEST,
        15 => all.tracks = GREATEST,
        16 => all.samples = GREATEST,
        _ => all.bytes = GREATEST,
    }
    all
}

fn states() -> Vec<FilmReturn> {
    let mut states: Vec<FilmReturn> = (0..18).map(with_greatest).collect();
    states.extend([with_scales(32, 0), with_scales(32, GREATEST), with_scales(32, 0), with_scales(31, 0)]);
    states.extend([with_units(GREATEST - 120), with_units(GREATEST - 119), with_scales(17, 0), with_scales(16, 0)]);
    states
}

/// Both, where they are within the limits.
fn joined(mut all: FilmReturn, other: &FilmReturn) -> FilmReturn {
    assert_eq!(all.join(other), 0);
    all
}

/// Pairs of returns to be joined: 32 and 33 scales, the same scales in another order, and totals up to the limit and one past it.
fn pairs() -> Vec<(FilmReturn, FilmReturn)> {
    let (few, one) = (with_scales(31, 0), with_units(7));
    let (last, first) = (joined(few.clone(), &one), joined(with_units(5), &few));
    let mut pairs = vec![
        (few.clone(), one.clone()),
        (with_units(5), few),
        (last.clone(), first.clone()),
        (first, last),
        (with_scales(32, 0), one.clone()),
        (one.clone(), with_scales(32, 0)),
        (with_scales(32, 0), with_scales(17, 0)),
        (with_scales(32, GREATEST), with_scales(32, 1)),
        (with_scales(32, GREATEST), joined(with_scales(0, 1), &one)),
        (with_units(GREATEST - 7), one.clone()),
        (with_units(GREATEST - 6), one),
    ];
    pairs.extend((11..29).map(|k| (with_greatest(k % 18), with_greatest(k % 18))));
    pairs
}

fn print(k: usize, refusal: u32, all: &FilmReturn) {
    let mut numbers = vec![u128::from(refusal), all.accepted];
    numbers.extend(all.refused);
    numbers.extend([all.tracks, all.samples, all.bytes]);
    numbers.extend(all.scales.iter().flat_map(|(scale, total)| [u128::from(*scale), *total]));
    let line: String = numbers.iter().map(|number| format!(" {number}")).collect();
    println!("{k}{line}");
}

fn main() {
    let arguments: Vec<String> = std::env::args().collect();
    let [_, data, args] = &arguments[..] else {
        panic!("return_films DATA ARGS");
    };
    let mut names = String::new();
    for (name, bytes) in films() {
        std::fs::write(format!("{data}/{name}"), &bytes).unwrap();
        names += &format!("{name}\n");
        for (k, mut all) in states().into_iter().enumerate() {
            let refusal = all.file(&bytes);
            print(k, refusal, &all);
        }
    }
    for (k, (mut all, other)) in pairs().into_iter().enumerate() {
        let refusal = all.join(&other);
        print(k, refusal, &all);
    }
    std::fs::write(args, names).unwrap();
}
