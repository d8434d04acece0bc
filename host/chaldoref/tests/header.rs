//! What the header has besides the proved functions: `header.c`, in C and in C++, prints what the crate has.
mod compiled;

use chaldoref::{Feature, Film, FilmReturn, MediaTime, Movie, MovieTime, Refusal, Sample, Shown, Slip, TrackId};
use reference::film::{self, w_movie, w_track};
use std::fmt::Write as _;
use std::path::Path;
use std::process::Command;

const ONE: TrackId = TrackId(1);

/// Film W with a profile, an empty edit, and composition times of which one is negative.
fn film() -> Vec<u8> {
    let track = film::Track {
        ctts: Some(vec![(1, -5), (3, 7)]),
        stss: Some(vec![4]),
        edits: Some(vec![(60, -1, 65536), (60, 24, 65536)]),
        profile: Some(vec![[0, 1, 7, 5], [0, 2, 8, 6]]),
        ..w_track()
    };
    film::Movie { tracks: vec![track], ..w_movie() }.file_of(4096).bytes()
}

fn words() -> String {
    let mut lines = String::from("refusal 0: answered\n");
    for refusal in Refusal::ALL {
        writeln!(lines, "refusal {}: {refusal}", refusal.number()).unwrap();
    }
    for number in [22, u32::MAX] {
        writeln!(lines, "refusal {number}: no refusal has this number").unwrap();
    }
    let short = Film::Moov { moov: &[0; 8], length: 7 };
    lines += "of a moov 0: answered\n";
    for refusal in Refusal::ALL {
        writeln!(lines, "of a moov {}: {}", refusal.number(), refusal.words_for(short)).unwrap();
    }
    lines += "of a moov 22: no refusal has this number\n";
    lines += "of a moov 1: the length of the file is above 2^63 - 1\n";
    lines += "of a moov 1: the moov is longer than 2,147,483,647 bytes\n";
    let version = env!("CARGO_PKG_VERSION");
    let number = version.split('.').fold(0, |number: u32, part| 1000 * number + part.parse::<u32>().unwrap());
    lines + &format!("version {version}: {version}, {number}, the library {number}\n")
}

fn tracks(movie: &Movie) -> String {
    let line = |t: &chaldoref::Track| {
        let [id, subtype, scale, total] = [t.id.0, t.subtype.0, t.scale, t.total.0];
        format!("track {id} {subtype:08x} {scale} {total} {} {} {} {}\n", t.samples, t.chunks, t.edits, t.stored)
    };
    movie.tracks().iter().map(line).collect()
}

/// A sample, or zeros with the refusal.
fn sample(movie: &Movie, n: u32) -> String {
    match movie.sample(ONE, n) {
        Err(refusal) => format!("sample {} 0 0 0 0 0 0 0 0, bytes 0 0\n", refusal.number()),
        Ok(s) => format!(
            "sample 0 {} {} {} {} {} {} {} {}, bytes {} {}\n",
            s.decode,
            s.duration,
            s.composition,
            u32::from(s.sync),
            s.description,
            s.chunk,
            s.offset,
            s.size,
            s.offset,
            s.size
        ),
    }
}

fn step(shown: u32, s: Sample) -> String {
    let sync = u32::from(s.sync);
    let Sample { decode, duration, composition, description, chunk, offset, size, .. } = s;
    format!("step {shown} {decode} {duration} {composition} {sync} {description} {chunk} {offset} {size}\n")
}

/// The samples from one on, done, the same again, and the first of them.
fn steps(movie: &Movie, n: u32) -> String {
    let samples: Vec<Sample> = movie.samples_from(ONE, n).unwrap().collect();
    let all = |shown| samples.iter().map(|sample| step(shown, *sample)).collect::<String>();
    format!("start 15 0\n{}{}{}{}", all(1), step(0, Sample::default()), all(2), step(3, samples[0]))
}

/// By the handle, by both ways.
fn opened(movie: &Movie, n: u32, t: u32) -> String {
    let at = movie.sample_at(ONE, MediaTime(t)).unwrap();
    let Shown::At(media) = movie.media_time(ONE, MovieTime(t)).unwrap() else { panic!("nothing is shown") };
    let line = format!("opened 14 0 15 0: at {} {}, media 1 {media}\n", at.sample, at.entry);
    let sample = movie.sample(ONE, n).unwrap();
    (line + &step(4, sample) + "stepper 15 0\n" + &step(6, sample)).repeat(2)
}

/// The stretch, and the lookups by the index, by both ways.
fn indexed(movie: &Movie) -> String {
    let stretch = movie.stretch(ONE, MediaTime(24)..MediaTime(73)).unwrap();
    let at = movie.sample_at(ONE, MediaTime(71)).unwrap();
    let lines = format!("by track 16 0 {} {}, 16 0\n", stretch.pairs.len(), stretch.bytes)
        + &pairs(&stretch.pairs)
        + &format!("indexed 0 0: at {} {}\n", at.sample, at.entry)
        + &step(5, movie.sample(ONE, 4).unwrap());
    lines.repeat(2) + "index of 0, 1, 4 and of more samples: 0 6 6 1\n"
}

fn media_time(movie: &Movie, t: u32) -> String {
    match movie.media_time(ONE, MovieTime(t)).unwrap() {
        Shown::At(media) => format!("media time 1 {media}\n"),
        Shown::Nothing => "media time 0 0\n".to_string(),
    }
}

fn sample_at(movie: &Movie, t: u32) -> String {
    let at = movie.sample_at(ONE, MediaTime(t)).unwrap();
    format!("sample at {} {}\n", at.sample, at.entry)
}

fn pairs(pairs: &[chaldoref::ByteRange]) -> String {
    pairs.iter().map(|pair| format!("pair {} {}\n", pair.offset, pair.length)).collect()
}

fn stretch_and_slips(movie: &Movie) -> [String; 2] {
    let time = MediaTime(24)..MediaTime(73);
    let stretch = movie.stretch(ONE, time.clone()).unwrap();
    let bytes = movie.write_slip(ONE, time).unwrap();
    let slip = Slip::read(&bytes).unwrap();
    let head = format!("slip 0: {} {} {} {} {}, fault 0\n", slip.id, slip.scale, slip.a, slip.b, slip.pairs.len());
    let fault = Slip::read(&bytes[..bytes.len() - 1]).unwrap_err().place;
    [
        format!("stretch {} {}\n{}", stretch.pairs.len(), stretch.bytes, pairs(&stretch.pairs)),
        format!("{head}{}slip 17: 0 0 0 0 0, fault {fault}\n", pairs(&slip.pairs)),
    ]
}

fn records_and_peak(movie: &Movie) -> String {
    let records = movie.profile(ONE).unwrap();
    let line = |r: &chaldoref::ProfileRecord| format!("record {} {:08x} {}\n", r.part, r.code.0, r.value);
    let peak = movie.peak(ONE, Feature::HighestVideoBitRate).unwrap().samples;
    records.iter().map(line).collect::<String>() + &format!("peak {} {}\n", peak.start(), peak.clone().count())
}

/// The verdicts on the profile and on the film, and a return with the film by both ways and a file of no bytes.
fn verdicts(movie: &Movie, film: &[u8]) -> String {
    let place = movie.check_profile(ONE).unwrap().unwrap_or(0);
    let fault = movie.check_quay().unwrap();
    let mut totals = FilmReturn::new();
    let alone = Film::Moov { moov: &film[..moov_length(film)], length: 4096 };
    for film in [Film::Whole(film), alone, Film::Whole(&[])] {
        totals.add(film).unwrap();
    }
    let refused: u64 = totals.refused().map(|(_, films)| films).sum();
    let lines = format!("verdicts 0: {place}, {} {}\n", fault.rule.number(), fault.track.unwrap())
        + &format!("totals {}, refused {refused}: ", totals.accepted())
        + &format!("{} {} {}\n", totals.tracks(), totals.samples(), totals.bytes());
    let lines = totals.scales().fold(lines, |lines, (scale, units)| lines + &format!("scale {scale} {units}\n"));
    let mut twice = totals.clone();
    twice.join(&totals).unwrap();
    lines + &format!("twice {}\n", twice.bytes())
}

/// The length of the film's moov, which comes first in it.
fn moov_length(film: &[u8]) -> usize {
    u32::from_be_bytes(*film.first_chunk().unwrap()) as usize
}

/// The moov with compact tables, compacted again, and a file of no bytes.
fn compact(film: &[u8]) -> String {
    let length = moov_length(film);
    format!("compact 0 {length}, again 0 {length} 1, of nothing 3 0\n")
}

/// What the program has to print about the film.
fn expected(film: &[u8]) -> String {
    let movie = Movie::open(film).unwrap();
    let samples = [1, 4, 5].map(|n| sample(&movie, n)).concat()
        + &[1, 4].map(|n| steps(&movie, n)).concat()
        + &opened(&movie, 4, 71)
        + &indexed(&movie);
    let times = [0, 60].map(|t| media_time(&movie, t)).concat() + &[71, 72].map(|t| sample_at(&movie, t)).concat();
    let [stretch, slips] = stretch_and_slips(&movie);
    // A file and a slip of no bytes are refused as such; then come room, bytes and places that are too few.
    let lent = "nothing lent 3 17 16 16 16 16 16\nlent 1 1 1 1 1\n";
    // The whole file is no moov alone, and no bytes have no moov; the header of a moof is a fragment's.
    let fragments = "fragments 0 0 0, 2 0 0, 3 0 0, 1\n";
    let judged = records_and_peak(&movie) + &verdicts(&movie, film);
    [
        words(),
        tracks(&movie),
        samples,
        times,
        stretch,
        judged,
        slips,
        compact(film),
        fragments.to_string(),
        lent.to_string(),
    ]
    .concat()
}

#[track_caller]
fn prints_what_the_crate_has(program: &Path) {
    let film = film();
    let name = program.with_extension("mov");
    std::fs::write(&name, &film).unwrap();
    let output = Command::new(program).arg(&name).output().unwrap();
    assert!(output.status.success());
    let printed = String::from_utf8(output.stdout).unwrap();
    for line in ["sample 0 0 24 -5 0 1", "media time 0 0", "record 2 00000008 6"] {
        assert!(printed.contains(line), "{line}");
    }
    assert_eq!(printed, expected(&film));
}

#[test]
fn in_c() {
    prints_what_the_crate_has(&compiled::c("tests/header.c", "header-in-c"));
}

#[test]
fn in_cpp() {
    if let Some(program) = compiled::cpp("tests/header.c", "header-in-cpp") {
        prints_what_the_crate_has(&program);
    }
}
