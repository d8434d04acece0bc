//! Stretches of film as byte ranges, and the slips written of them.
use super::{same_file, scale, Answer};
use crate::failure::Failure;
use crate::film::Film;
use crate::input::{self, STANDARD};
use crate::json::{Object, Value};
use crate::output;
use crate::sha256;
use crate::table::{self, number};
use crate::time::{stretch_in_words, Span};
use crate::warnings;
use chaldoref::{ByteRange, MediaTime, Movie, TrackId};
use std::ffi::{OsStr, OsString};
use std::io::{self, Write};
use std::ops::Range;
use std::path::Path;

pub fn stretch(movie: &Movie, track: TrackId, span: &Span, to: Answer) -> Result<(), Failure> {
    let (time, stretch) = span.ask(movie, track, |time| movie.stretch(track, time))?;
    let scale = scale(movie, track)?;
    let warnings = warnings::of_stretch(movie, track, &time);
    warnings::tell(&warnings);
    if to.json {
        return to.document(|o| {
            time_fields(o.put("track", track.0)?, &time, scale)?;
            o.list("pairs", &stretch.pairs, pair_fields)?.put("bytes", stretch.bytes)?;
            o.texts("warnings", &warnings).map(drop)
        });
    }
    print_pairs(&stretch.pairs, stretch.bytes, to.out)?;
    Ok(writeln!(to.out, "{}", stretch_in_words(&time, scale))?)
}

/// The film's own bytes, range after range.
pub fn stretch_bytes(film: &Film, movie: &Movie, track: TrackId, span: &Span, to: Answer) -> Result<(), Failure> {
    let (time, stretch) = span.ask(movie, track, |time| movie.stretch(track, time))?;
    tell_units(movie, track, &time)?;
    warnings::tell(&warnings::of_stretch(movie, track, &time));
    film.copy(&stretch.pairs, to.out)
}

pub fn slip(film: &Film, movie: &Movie, track: TrackId, span: &Span, hashed: bool, to: Answer) -> Result<(), Failure> {
    if to.json {
        return slip_document(film, movie, track, span, hashed, to);
    }
    let (_, slip) = slip_of(film, movie, track, span)?;
    for (i, byte) in slip.iter().enumerate() {
        write!(to.out, "{}{byte:02X}", if i > 0 { " " } else { "" })?;
    }
    Ok(to.out.write_all(b"\n")?)
}

fn slip_document(
    film: &Film,
    movie: &Movie,
    track: TrackId,
    span: &Span,
    hashed: bool,
    to: Answer,
) -> Result<(), Failure> {
    let (time, slip) = written(film, movie, track, span)?;
    let warnings = warnings::of_stretch(movie, track, &time);
    warnings::tell(&warnings);
    let scale = scale(movie, track)?;
    let hash = hashed.then(|| film.hash(&movie.stretch(track, time.clone())?.pairs)).transpose()?;
    to.document(|o| {
        time_fields(o.put("track", track.0)?, &time, scale)?;
        o.put("slip", Value::Hex(slip))?.texts("warnings", &warnings)?;
        hash.map_or(Ok(()), |hash| o.put("sha256", hash).map(drop))
    })
}

/// Writes the slip to the file of that name, and beside it the hash of the film's bytes, if that is asked for.
pub fn file_slip(
    film: &Film,
    movie: &Movie,
    (track, span): (TrackId, &Span),
    (name, hashed): (&OsStr, bool),
    to: Answer,
) -> Result<(), Failure> {
    let (time, slip) = slip_of(film, movie, track, span)?;
    let (beside, film_name) = (hash_name(name), to.file);
    if !hashed {
        write_out(&slip, name, film_name, to)?;
        if name != STANDARD && Path::new(&beside).exists() {
            let words = "is of an earlier slip: write it anew with --sha256, or remove it";
            warnings::tell(&[format!("{} {words}", input::named(&beside))]);
        }
        return Ok(());
    }
    let hash = film.hash(&movie.stretch(track, time)?.pairs)?;
    // The hash goes first, so that no slip is left beside the hash of an earlier one.
    put(&beside, film_name, sha256::line(&hash).as_bytes())?;
    put(name, film_name, &slip)?;
    warnings::say(&format!("the sha256 of the film's bytes is in {}", input::named(&beside)));
    Ok(())
}

/// The file beside a slip that has the hash of the film's bytes.
pub fn hash_name(slip: &OsStr) -> OsString {
    let mut name = slip.to_owned();
    name.push(".sha256");
    name
}

/// The stretch that a slip is of, and the slip's bytes.
fn written(film: &Film, movie: &Movie, track: TrackId, span: &Span) -> Result<(Range<MediaTime>, Vec<u8>), Failure> {
    let written = span.ask(movie, track, |time| movie.write_slip(track, time));
    written.map_err(|failure| film.slip_refused(movie, failure))
}

/// The stretch and the bytes of the slip, and on standard error what people must know of it.
fn slip_of(film: &Film, movie: &Movie, track: TrackId, span: &Span) -> Result<(Range<MediaTime>, Vec<u8>), Failure> {
    let (time, slip) = written(film, movie, track, span)?;
    tell_units(movie, track, &time)?;
    warnings::tell(&warnings::of_stretch(movie, track, &time));
    Ok((time, slip))
}

/// Tells the units and what they are by the clock on standard error, since standard output has other things.
fn tell_units(movie: &Movie, track: TrackId, time: &Range<MediaTime>) -> Result<(), Failure> {
    warnings::say(&format!("track {track}, {}", stretch_in_words(time, scale(movie, track)?)));
    Ok(())
}

/// Writes a slip's bytes to the file of that name, which must not be the film.
fn write_out(slip: &[u8], name: &OsStr, film: &OsStr, to: Answer) -> Result<(), Failure> {
    if name == STANDARD {
        return Ok(to.out.write_all(slip)?);
    }
    put(name, film, slip)
}

/// Writes a file that must not be the film, nor another film.
fn put(name: &OsStr, film: &OsStr, bytes: &[u8]) -> Result<(), Failure> {
    let kept = |words: &str| Err(io::Error::new(io::ErrorKind::AlreadyExists, words));
    let written = if same_file(name, film) {
        kept("this is the film itself")
    } else if output::is_film(name.as_ref()) {
        kept("this is a film, and no slip is written over it; name another OUT")
    } else {
        output::replace(name.as_ref(), bytes)
    };
    written.map_err(|error| Failure::NotWritten(name.to_owned(), error))
}

/// From where a stretch lasts, and up to where.
pub fn time_fields(o: &mut Object, time: &Range<MediaTime>, scale: u32) -> io::Result<()> {
    o.time("a", time.start.0, scale)?.time("b", time.end.0, scale).map(drop)
}

pub fn pair_fields(o: &mut Object, pair: &ByteRange) -> io::Result<()> {
    o.put("offset", pair.offset)?.put("length", pair.length).map(drop)
}

pub fn print_pairs(pairs: &[ByteRange], bytes: u64, out: &mut dyn Write) -> io::Result<()> {
    let row = |pair: &ByteRange| [pair.offset.to_string(), pair.length.to_string()];
    table::write(out, [number("offset"), number("length")], pairs, row)?;
    let s = if pairs.len() == 1 { "" } else { "s" };
    writeln!(out, "{} range{s}, {bytes} bytes", pairs.len())
}
