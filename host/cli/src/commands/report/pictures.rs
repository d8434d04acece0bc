//! The pictures of a film: what is filed, what edits show, bit rates, and where the bytes lie.
use super::super::check::{is_of, Account};
use super::super::edits::{movie_time, units, Entry};
use super::film::Rates;
use crate::checked::Checked;
use crate::failure::Failure;
use crate::html::{escaped, shortened};
use crate::input;
use crate::svg::{round_step, Axis, Picture, COLUMNS};
use crate::time::{clock, stretch_in_words};
use chaldoref::{FourCC, MediaTime, Movie, Track};
use std::ops::Range;
use std::path::Path;

/// Where a band stands in its picture.
const BAND: (f64, f64) = (14.0, 30.0);

/// More atoms are drawn without their names.
const MOST_ATOMS: usize = 64;

/// As long is a name in the words of a band, and in a list.
pub const NAME: usize = 40;

/// As many times the peak may be a claim that is drawn as a line.
const DRAWN: u64 = 2;

/// Bits a second, as people have them.
pub fn rate_in_words(rate: u64) -> String {
    let (unit, name) = match rate {
        0..1_000 => return format!("{rate} bit/s"),
        1_000..1_000_000 => (1, "kbit/s"),
        _ => (1_000, "Mbit/s"),
    };
    let thousandths = rate / unit;
    let digits = format!("{}.{:03}", thousandths / 1000, thousandths % 1000);
    format!("{} {name}", digits.trim_end_matches('0').trim_end_matches('.'))
}

/// The timeline of a track: stretches that are filed, with the names of their slips, overlaps and gaps. More than so many parts have no names.
pub fn filed(account: &Account, slips: &[Checked], most: usize) -> String {
    let Account { track, filed, .. } = account;
    if track.total.0 == 0 {
        return String::new();
    }
    let about = format!("What is filed of track {}", track.id);
    let mut picture = Picture::new(axis(track), 56.0, &about);
    let own = |checked: &&Checked| checked.good().is_some_and(|slip| is_of(slip, track) && slip.time().is_some());
    let own: Vec<&Checked> = slips.iter().filter(own).collect();
    let times = || own.iter().filter_map(|checked| checked.good()?.time());
    if own.len() + filed.overlaps.len() + filed.gaps.len() > most {
        let (all, overlaps, gaps) = (times().collect::<Vec<_>>(), &filed.overlaps, &filed.gaps);
        for (class, parts) in [("filed", &all), ("twice", overlaps), ("gap", gaps)] {
            picture.columns(class, &marked(axis(track), parts.iter().map(numbers)), BAND);
        }
        let words = format!("{} slips, too many to name them in the picture.", own.len());
        return picture.finish() + &format!("<p class=\"soft\">{words}</p>\n");
    }
    for (checked, time) in own.iter().zip(times()) {
        let name = input::called(checked.name);
        let short = Path::new(checked.name).file_name().map_or(name.clone(), input::shown);
        let all = format!("{}: {}", shortened(&name, NAME), stretch_in_words(&time, track.scale));
        picture.band("filed", numbers(&time), BAND, (&short, &all));
    }
    let length = |time: &Range<MediaTime>| clock(MediaTime(time.end.0 - time.start.0), track.scale);
    for time in &filed.overlaps {
        let all = format!("filed more than once: {}", stretch_in_words(time, track.scale));
        picture.band("twice", numbers(time), BAND, (&format!("twice {}", length(time)), &all));
    }
    for time in &filed.gaps {
        let all = format!("gap: {}", stretch_in_words(time, track.scale));
        picture.band("gap", numbers(time), BAND, (&format!("gap {}", length(time)), &all));
    }
    picture.finish()
}

fn numbers(time: &Range<MediaTime>) -> Range<u64> {
    u64::from(time.start.0)..u64::from(time.end.0)
}

fn axis(track: &Track) -> Axis {
    Axis::Time(track.total.0.into(), track.scale.into())
}

/// The movie time that a track's edits take, and what each shows. More than so many have no words.
pub fn edits(movie: &Movie, track: &Track, entries: &[Entry], most: usize) -> String {
    let id = track.id;
    let all: u64 = entries.iter().map(|entry| units(entry.edit.duration)).sum();
    if entries.is_empty() || all == 0 {
        let words = format!("track {id} has no edit list: all of it is shown, from movie time 0 on");
        return if entries.is_empty() { format!("<p class=\"soft\">{}</p>\n", escaped(&words)) } else { String::new() };
    }
    let scale = movie.header().scale;
    let axis = Axis::Time(all, scale.into());
    let mut picture = Picture::new(axis, 56.0, &format!("What the edits of track {id} show"));
    if entries.len() > most {
        let span = |entry: &Entry| entry.start..entry.start + units(entry.edit.duration);
        for (class, shows) in [("filed", true), ("empty", false)] {
            let some = entries.iter().filter(|entry| entry.edit.start().is_some() == shows).map(span);
            picture.columns(class, &marked(axis, some), BAND);
        }
    }
    for Entry { start, edit } in entries.iter().filter(|_| entries.len() <= most) {
        let end = start + units(edit.duration);
        let [from, to] = [*start, end].map(|time| movie_time(time, scale));
        let (class, words) = match edit.start() {
            Some(media) => ("filed", format!("shows media from {}", clock(media, track.scale))),
            None => ("empty", "nothing shown".into()),
        };
        let title = format!("movie time {from} to {to}: {words}");
        picture.band(class, *start..end, BAND, (&words, &title));
    }
    let count = entries.len();
    let s = if count == 1 { "y" } else { "ies" };
    format!(
        "<p class=\"soft lead\">Edit list of track {id}, {count} entr{s}: what is shown at which movie time</p>\n{}",
        picture.finish()
    )
}

/// The bit rate over time, with the average, the peak and the camera's claims.
pub fn rates(rates: &Rates) -> String {
    let Rates { track, columns, .. } = rates;
    let Some(greatest) = columns.iter().flatten().max().copied() else {
        return "<p>No run of samples has a rate.</p>\n".into();
    };
    let claims = rates.claims().map(|(record, is_true)| (record.code, u64::from(record.value), is_true));
    let (drawn, above): (Vec<_>, Vec<_>) = claims.partition(|(_, value, _)| *value <= greatest.saturating_mul(DRAWN));
    let top = drawn.iter().map(|(_, value, _)| *value).chain([greatest]).max().unwrap_or(1).max(1);
    let top = top.saturating_add(top / 8);
    let mut picture = Picture::new(axis(track), 200.0, &format!("Bit rate of track {} over one second", track.id));
    let step = round_step(top.saturating_mul(2));
    (0..=top / step).for_each(|i| picture.level_tick(i * step, top, &rate_in_words(i * step)));
    if let Some(peak) = &rates.peak {
        picture.band("peak", numbers(&peak.time), (8.0, 192.0), ("", "the second with the highest bit rate"));
    }
    picture.area("area", columns, top);
    if let Some(average) = rates.average {
        picture.level("average", average.into(), top, &format!("average {}", rate_in_words(average.into())), false);
    }
    for (code, value, is_true) in &drawn {
        let (class, verdict) = if *is_true { ("true", "true") } else { ("untrue", "not true") };
        let words = format!("camera claims at most {} ({code}): {verdict}", rate_in_words(*value));
        picture.level(class, *value, top, &words, true);
    }
    if let (Ok(rate), Some(peak)) = (rates.highest, &rates.peak) {
        let words = format!("peak {} at {}", rate_in_words(rate.into()), clock(peak.time.start, track.scale));
        picture.note("peak-words", peak.time.start.0.into(), 21.0, &words);
    }
    picture.finish() + &above_in_words(&above)
}

/// The claims that lie far above the picture.
fn above_in_words(above: &[(FourCC, u64, bool)]) -> String {
    let words = |(code, value, is_true): &(FourCC, u64, bool)| {
        let verdict = if *is_true { "true" } else { "not true" };
        let claim = format!("the camera claims at most {} ({code}): {verdict}", rate_in_words(*value));
        format!("<p class=\"soft\">Above the picture: {}.</p>\n", escaped(&claim))
    };
    above.iter().map(words).collect()
}

/// Where the atoms at top level and the samples of each track lie in the file.
pub fn map(movie: &Movie, atoms: &[(FourCC, Range<u64>)]) -> Result<String, Failure> {
    let axis = Axis::Bytes(movie.film().length());
    let row = |i: usize| (14.0 + 28.0 * i as f64, 20.0);
    let mut picture = Picture::new(axis, row(movie.tracks().len()).0 + 28.0, "Where the film's parts lie in the file");
    picture.row(row(0).0 + 15.0, "atoms");
    let is_moov = |kind: &FourCC| *kind == FourCC::from_bytes(*b"moov");
    if atoms.len() <= MOST_ATOMS {
        for (kind, range) in atoms {
            let class = if is_moov(kind) { "moov" } else { "other" };
            let all = format!("{kind}: {} bytes at byte {}", range.end - range.start, range.start);
            picture.band(class, range.clone(), row(0), (&kind.to_string(), &all));
        }
    } else {
        for (class, wanted) in [("other", false), ("moov", true)] {
            let some = atoms.iter().filter(|(kind, _)| is_moov(kind) == wanted).map(|(_, range)| range.clone());
            picture.columns(class, &marked(axis, some), row(0));
        }
    }
    for (i, track) in (1..).zip(movie.tracks()) {
        let ranges = movie.samples(track.id)?.map(|sample| {
            let range = sample.range();
            range.offset..range.offset + range.length
        });
        picture.row(row(i).0 + 15.0, &format!("track {}", track.id));
        picture.columns("chunk", &marked(axis, ranges), row(i));
    }
    Ok(picture.finish() + "<p class=\"soft\">Byte offsets in the file: moov holds the tables; the rows below it are where each track's pictures or sound lie.</p>\n")
}

/// The columns that some ranges touch.
fn marked(axis: Axis, ranges: impl Iterator<Item = Range<u64>>) -> Vec<bool> {
    let mut columns = vec![false; COLUMNS];
    for range in ranges.filter(|range| !range.is_empty()) {
        columns[axis.column(range.start)..=axis.column(range.end - 1)].fill(true);
    }
    columns
}
