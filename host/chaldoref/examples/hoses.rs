//! The regulator's three questions about a film of hoses: which tracks the movie holds, which bytes show the second
//! hose, and whether the film time filed adds up. A refusal is printed by its number.
//!
//!     cargo run --example hoses ../../films/two-hoses.mov
use chaldoref::{MediaTime, Movie, Refusal, Slip, Track, TrackId};
use std::error::Error;
use std::ops::Range;

/// The track that films the second hose.
const SECOND_HOSE: TrackId = TrackId(2);

fn main() -> Result<(), Box<dyn Error>> {
    let name = std::env::args_os().nth(1).ok_or("usage: hoses FILM")?;
    let file = std::fs::read(name)?;
    match Movie::open(&file) {
        Ok(movie) => print_answers(&movie),
        Err(refusal) => println!("{}", refused(refusal)),
    }
    Ok(())
}

fn refused(refusal: Refusal) -> String {
    format!("refused {}", refusal.number())
}

fn print_answers(movie: &Movie) {
    println!("Which tracks does the movie hold?");
    print_tracks(movie);
    println!("Which bytes show the second hose?");
    if let Err(refusal) = print_bytes(movie, SECOND_HOSE) {
        println!("{}", refused(refusal));
    }
    println!("Does the film time filed add up?");
    for track in movie.tracks() {
        println!("track {}: {}", track.id, account(movie, track).unwrap_or_else(refused));
    }
}

fn print_tracks(movie: &Movie) {
    println!("id subtype scale total samples chunks edits stored");
    for t in movie.tracks() {
        print!("{} {:08x} {} {} {} {}", t.id, t.subtype.0, t.scale, t.total, t.samples, t.chunks);
        println!(" {} {}", t.edits, t.stored);
    }
}

/// The whole of a track as byte ranges.
fn print_bytes(movie: &Movie, id: TrackId) -> Result<(), Refusal> {
    let total = movie.track(id).ok_or(Refusal::NoTrack)?.total;
    let stretch = movie.stretch(id, MediaTime(0)..total)?;
    for pair in &stretch.pairs {
        println!("{} bytes of film from byte {} of the file", pair.length, pair.offset);
    }
    println!("{} bytes of film in all", stretch.bytes);
    Ok(())
}

/// Files the whole of a track in two slips, which meet where its second sample starts; in one where no film time lies
/// before that or after it.
fn account(movie: &Movie, track: &Track) -> Result<String, Refusal> {
    let (start, total) = (MediaTime(0), track.total);
    if total == start {
        return Ok("no film time".to_string());
    }
    let cut = movie.sample(track.id, 2).map_or(start, |second| second.decode);
    let (slips, units) = if start < cut && cut < total {
        let (first, second) = (filed(movie, track.id, start..cut)?, filed(movie, track.id, cut..total)?);
        (format!("one slip files {first} units of film time and one {second}"), u64::from(first) + u64::from(second))
    } else {
        let units = filed(movie, track.id, start..total)?;
        (format!("one slip files {units} units of film time"), u64::from(units))
    };
    let verdict = if units == u64::from(total.0) { "adds up" } else { "does not add up" };
    Ok(format!("{slips}, the movie has {total}: {verdict}"))
}

/// The film time that the slip of a stretch files, read back from the slip's bytes alone.
fn filed(movie: &Movie, id: TrackId, time: Range<MediaTime>) -> Result<u32, Refusal> {
    let slip = movie.write_slip(id, time)?;
    Ok(Slip::read(&slip)?.film_time())
}
