//! Highest rates over a second: each way that a run can end, each of their grounds for 18, and what comes nearest to it.
use super::asks::{CODES, PEAKS};
use super::base::*;
use reference::film::*;

/// The tables of a track whose samples are each a chunk of its own at offset 0.
struct Tables {
    scale: u32,
    stts: Vec<(u32, u32)>,
    stsz: Sizes,
}

impl Tables {
    fn new(scale: u32, stts: &[(u32, u32)], stsz: Sizes) -> Tables {
        Tables { scale, stts: stts.to_vec(), stsz }
    }

    /// One sample for each duration and size.
    fn each(scale: u32, list: &[(u32, u32)]) -> Tables {
        let stts = list.iter().map(|(duration, _)| (1, *duration)).collect();
        Tables { scale, stts, stsz: Sizes::Each(list.iter().map(|(_, size)| *size).collect()) }
    }

    fn track(&self, id: u32, subtype: &[u8; 4]) -> Track {
        let samples: u32 = self.stts.iter().map(|(count, _)| count).sum();
        track(id, |track| {
            (track.subtype, track.scale) = (*subtype, self.scale);
            track.duration = self.stts.iter().map(|(count, duration)| count * duration).sum();
            (track.stts, track.stsz) = (self.stts.clone(), self.stsz.clone());
            track.stsc = if samples > 0 { vec![(1, 1, 1)] } else { vec![] };
            track.stco = vec![0; usize::try_from(samples).unwrap()];
        })
    }
}

/// What is said of tables: the rate, the first sample of the run and how many it has; nothing where it is refused 18.
type Answer = Option<(u32, u32, u32)>;

fn says(film: &mut Film, id: u32, code: &str, answer: Answer) {
    let [feature, peak] = match answer {
        Some((rate, first, samples)) => [format!("{rate} = 0x{rate:08x}"), format!("from {first} count {samples}")],
        None => ["refused 18".to_string(), "refused 18".to_string()],
    };
    film.says(&[&format!("feature {id} {code}: {feature}"), &format!("peak {id} {code}: {peak}")]);
}

/// A film with a track of pictures (1, 4, 7 ..), one of sound and one of text for each of the tables.
fn film(films: &mut Films, name: &str, all: &[(Tables, Answer)]) {
    let mut tracks = Vec::new();
    for ((tables, _), id) in all.iter().zip((1..).step_by(3)) {
        tracks.extend([tables.track(id, b"vide"), tables.track(id + 1, b"soun"), tables.track(id + 2, b"text")]);
    }
    let film = films.node(0, name, movie(&tracks).file());
    for ((_, answer), id) in all.iter().zip((1..).step_by(3)) {
        for id in id..id + 3 {
            film.features(id, &PEAKS).peaks(id, &PEAKS);
        }
        says(film, id, "mvbr", *answer);
        says(film, id + 1, "mabr", *answer);
        for (id, code) in [(id, "mabr"), (id + 1, "mvbr"), (id + 2, "mvbr"), (id + 2, "mabr")] {
            says(film, id, code, None);
        }
    }
}

/// A film of one track; two as long would be too long for the program.
fn long_film(films: &mut Films, name: &str, subtype: &[u8; 4], tables: Tables, answer: Answer) {
    let film = films.node(0, name, movie(&[tables.track(1, subtype)]).file());
    film.features(1, &CODES).peaks(1, &PEAKS);
    let (code, other) = if subtype == b"vide" { ("mvbr", "mabr") } else { ("mabr", "mvbr") };
    says(film, 1, code, answer);
    says(film, 1, other, None);
}

/// "the shortest run starting there whose durations total at least the time scale"
fn seconds(films: &mut Films) {
    let frames = Tables::new(600, &[(50, 24)], Sizes::Common(7, 50));
    let last_is_greater = Tables::new(600, &[(26, 24)], Sizes::Each([[7; 25].as_slice(), &[8]].concat()));
    film(films, "peak-one-run-of-frames", &[(frames, Some((1400, 1, 25))), (last_is_greater, Some((1408, 2, 25)))]);

    // Samples 11 to 20 have 5 × 1 and 5 × 9 bytes; samples 11 to 16 last 5 × 1 and 5 units.
    let burst = Tables::new(10, &[(20, 1)], Sizes::Each([[1; 15].as_slice(), &[9; 5]].concat()));
    let long_last = Tables::new(10, &[(15, 1), (1, 5)], Sizes::Each([[1; 15].as_slice(), &[99]].concat()));
    // In the middle, where both ends of the run move by more than a sample at once.
    let middle = Tables::each(10, &[(4, 1), (9, 1), (2, 60), (1, 70), (8, 2), (30, 1), (1, 9)]);
    let all = [(burst, Some((400, 11, 10))), (long_last, Some((832, 11, 6))), (middle, Some((960, 3, 3)))];
    film(films, "peak-burst", &all);

    film(
        films,
        "peak-total-below-at-and-above-a-second",
        &[
            // 480 / 9, 480 / 10, 480 / 11.
            (Tables::each(10, &[(5, 3), (4, 3)]), Some((54, 1, 2))),
            (Tables::each(10, &[(5, 3), (5, 3)]), Some((48, 1, 2))),
            (Tables::each(10, &[(5, 3), (6, 3)]), Some((44, 1, 2))),
            // "Runs that never get there are left out"
            (Tables::each(10, &[(10, 3), (5, 3), (4, 3)]), Some((24, 1, 1))),
            (Tables::each(10, &[(10, 3), (5, 3), (5, 3)]), Some((48, 2, 2))),
        ],
    );
    film(
        films,
        "peak-samples-of-no-duration",
        &[
            // Runs: 1 to 3 (9 bytes in 10 units), 2 to 3 (2), 3 to 5 (53 in 15), 4 to 5 (52 in 10), 5 (2).
            (Tables::each(10, &[(0, 7), (5, 1), (5, 1), (0, 50), (10, 2)]), Some((416, 4, 2))),
            // At the end they belong to no run, but where the whole track is the run.
            (Tables::each(10, &[(10, 1), (0, 100)]), Some((8, 1, 1))),
            (Tables::each(11, &[(10, 1), (0, 100)]), Some((889, 1, 2))),
            (Tables::each(10, &[(0, 100), (0, 100), (10, 1)]), Some((1608, 1, 3))),
            (Tables::each(10, &[(10, 1), (0, 9), (0, 9), (0, 9), (10, 1), (0, 9)]), Some((224, 2, 4))),
        ],
    );
    film(
        films,
        "peak-first-of-equal-rates",
        &[
            // 80 / 19, 80 / 17 and 80 / 16 are all 5, rounded up; 80 / 20 is 4.
            (Tables::each(10, &[(19, 1), (17, 1), (16, 1)]), Some((5, 1, 1))),
            (Tables::each(10, &[(20, 1), (17, 1), (16, 1)]), Some((5, 2, 1))),
            (Tables::each(10, &[(10, 0), (10, 0)]), Some((0, 1, 1))),
            // More bytes in a longer run are no higher rate: 8 × 3 × 10 / 30 is 8, as 8 × 1 × 10 / 10 is.
            (Tables::each(10, &[(30, 3), (10, 1)]), Some((8, 1, 1))),
            (Tables::each(10, &[(40, 3), (10, 1)]), Some((8, 2, 1))),
        ],
    );
}

/// "18 on the grounds 01 has for the averages, judged for any run"
fn refused(films: &mut Films) {
    film(
        films,
        "peak-nothing-to-divide-by",
        &[
            (Tables::each(10, &[]), None),
            (Tables::new(10, &[], Sizes::Common(9, 0)), None),
            (Tables::each(1, &[(0, 7)]), None),
            (Tables::each(10, &[(0, 0), (0, 0), (0, 0)]), None),
        ],
    );
    film(
        films,
        "peak-of-the-whole-track-of-32-bits",
        &[
            // 8 × 15 × (2^32 - 1) / 120, and a byte more.
            (Tables::new(u32::MAX, &[(4, 30)], Sizes::Each(vec![5, 4, 3, 3])), Some((u32::MAX, 1, 4))),
            (Tables::new(u32::MAX, &[(4, 30)], Sizes::Each(vec![5, 4, 3, 4])), None),
            // 24 × 1968526677 is eight less than 11 × 2^32: rounded up the result is 2^32.
            (Tables::new(1_968_526_677, &[(3, 2), (1, 5)], Sizes::Each(vec![1, 1, 0, 1])), None),
            (Tables::new(1_968_526_676, &[(3, 2), (1, 5)], Sizes::Each(vec![1, 1, 0, 1])), Some((u32::MAX - 1, 1, 4))),
        ],
    );
    // 11,587 samples of 46,336 bytes are 4,295,161,856 bits. 22,075 parts of 22,076 of them are below 2^32, 22,076 of 22,077 are not.
    let all_of = |scale, last| Tables::new(scale, &[(11_586, 1), (1, last)], Sizes::Common(46_336, 11_587));
    long_film(films, "peak-of-32-bits", b"vide", all_of(22_075, 10_490), Some((4_294_967_294, 1, 11_587)));
    long_film(films, "peak-over-32-bits", b"soun", all_of(22_076, 10_491), None);
    // The first run, of one sample, has 370,688 bits; the second, of 12,001 samples, more than 2^32. With a unit less it never gets there.
    let later = |last| Tables::new(13_000, &[(1, 13_000), (12_000, 1), (1, last)], Sizes::Common(46_336, 12_002));
    long_film(films, "peak-of-a-later-run-over-32-bits", b"vide", later(1000), None);
    long_film(films, "peak-of-a-later-run-left-out", b"soun", later(999), Some((370_688, 1, 1)));
    let first = Tables::new(13_000, &[(12_000, 1), (1, 1000), (2, 13_000)], Sizes::Common(46_336, 12_003));
    long_film(films, "peak-of-the-first-run-over-32-bits", b"vide", first, None);
}

pub fn films(films: &mut Films) {
    seconds(films);
    refused(films);
}
