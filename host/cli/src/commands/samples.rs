//! Samples of a track: one of them, or one after the other.
use super::{scale, Answer, CLOCK};
use crate::failure::Failure;
use crate::json::{document, Object};
use crate::table::{number, text, Column, Streamed};
use crate::time::clock;
use chaldoref::{Movie, Refusal, Sample, Track, TrackId};
use std::io::{self, Write};

/// The columns for people.
const COLUMNS: [Column; 10] = [
    number("sample"),
    number("decode"),
    CLOCK,
    number("duration"),
    number("composition"),
    text("sync"),
    number("description"),
    number("chunk"),
    number("offset"),
    number("size"),
];

/// Those of comma-separated lines: the same without the clock, and a sync sample is 1.
const CSV: &str = "sample,decode,duration,composition,sync,description,chunk,offset,size";

pub fn sample(movie: &Movie, track: TrackId, n: u32, to: Answer) -> Result<(), Failure> {
    let s = movie.sample(track, n)?;
    let scale = scale(movie, track)?;
    if to.json {
        return to.document(|o| fields(o, track, n, &s, scale));
    }
    let widest = [
        digits(n),
        digits(s.decode.0),
        0,
        digits(s.duration),
        0,
        0,
        0,
        digits(s.chunk),
        digits(s.offset),
        digits(s.size),
    ];
    Ok(row(&mut Streamed::new(to.out, COLUMNS, widest)?, n, &s, scale)?)
}

/// The samples from one number to another, which are 1 and that of the last where they were not given.
pub fn samples(
    movie: &Movie,
    id: TrackId,
    from: Option<u32>,
    last: Option<u32>,
    csv: bool,
    to: Answer,
) -> Result<(), Failure> {
    let track = movie.track(id).ok_or(Refusal::NoTrack)?;
    let outside = |refusal| outside(track, refusal);
    let samples = match from {
        None => movie.samples(id),
        Some(from) => movie.samples_from(id, from),
    };
    let samples = samples.map_err(outside)?;
    let from = from.unwrap_or(1);
    if let Some(last) = last {
        movie.sample(id, last).map_err(outside)?;
        if last < from {
            let words = format!("sample {from}, the first, is past sample {last}, the last");
            return Err(Failure::Refused(Refusal::Outside, Some(words)));
        }
    }
    let count = last.map_or(track.samples, |last| last - (from - 1)) as usize;
    let numbered = (from..).zip(samples.take(count));
    if csv {
        return Ok(lines(numbered, to.out)?);
    }
    if to.json {
        return Ok(documents(track, numbered, to)?);
    }
    let mut table = Streamed::new(to.out, COLUMNS, widest(movie, track))?;
    Ok(numbered.into_iter().try_for_each(|(n, s)| row(&mut table, n, &s, track.scale))?)
}

/// The refusal of a sample number, which says the numbers there are.
fn outside(track: &Track, refusal: Refusal) -> Failure {
    let words = match track.samples {
        0 => format!("track {} has no samples", track.id),
        last => format!("track {} has the samples 1 to {last}", track.id),
    };
    match refusal {
        Refusal::Outside => Failure::Refused(refusal, Some(words)),
        other => other.into(),
    }
}

/// How wide the cells of a track's samples can be: no number is above the track's total, the number of its samples or of its chunks,
/// or the length of the film. A composition time and a description ID are no wider than their headings.
fn widest(movie: &Movie, track: &Track) -> [usize; 10] {
    let length = movie.film().length();
    let time = digits(track.total.0);
    let size = digits(length.min(u32::MAX.into()));
    let clock = clock(track.total, track.scale).len();
    [digits(track.samples), time, clock, time, 0, 0, 0, digits(track.chunks), digits(length), size]
}

fn digits(number: impl Into<u64>) -> usize {
    number.into().checked_ilog10().map_or(1, |log| log as usize + 1)
}

fn row(table: &mut Streamed<'_, 10>, n: u32, s: &Sample, scale: u32) -> io::Result<()> {
    let start = clock(s.decode, scale);
    let sync = if s.sync { "yes" } else { "no" };
    let (decode, description) = (s.decode.0, s.description);
    table.row([&n, &decode, &start, &s.duration, &s.composition, &sync, &description, &s.chunk, &s.offset, &s.size])
}

fn lines(numbered: impl Iterator<Item = (u32, Sample)>, out: &mut dyn Write) -> io::Result<()> {
    writeln!(out, "{CSV}")?;
    for (n, s) in numbered {
        let sync = u32::from(s.sync);
        let Sample { decode, duration, composition, description, chunk, offset, size, .. } = s;
        writeln!(out, "{n},{decode},{duration},{composition},{sync},{description},{chunk},{offset},{size}")?;
    }
    Ok(())
}

/// A document for each sample, the same as that of one sample.
fn documents(track: &Track, numbered: impl Iterator<Item = (u32, Sample)>, to: Answer) -> io::Result<()> {
    let of = to.subject();
    for (n, s) in numbered {
        document(to.out, of, |o| fields(o, track.id, n, &s, track.scale))?;
    }
    Ok(())
}

fn fields(o: &mut Object, track: TrackId, n: u32, s: &Sample, scale: u32) -> io::Result<()> {
    o.put("track", track.0)?.put("sample", n)?;
    o.time("decode", s.decode.0, scale)?.time("duration", s.duration, scale)?;
    o.time("composition", s.composition, scale)?;
    o.put("sync", s.sync)?.put("description", s.description)?;
    o.put("chunk", s.chunk)?.put("offset", s.offset)?.put("size", s.size).map(drop)
}
