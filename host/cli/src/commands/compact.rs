//! The film written anew with compact tables: fewer entries in stts and stsc, and everything else as it was.
use super::{same_file, Answer};
use crate::failure::Failure;
use crate::film::Film;
use crate::json::Object;
use crate::output;
use crate::table::{self, number};
use chaldoref::{Film as Lent, Movie, TableEntries, TrackId};
use std::ffi::OsStr;
use std::fs;
use std::io;

/// What became of a track's tables.
struct Compacted {
    id: TrackId,
    before: TableEntries,
    after: TableEntries,
}

impl Compacted {
    /// The bytes that are free now: 8 for each entry of stts that is left out, and 12 for each of stsc.
    fn freed(&self) -> u64 {
        let fewer = |before: u32, after: u32| u64::from(before.saturating_sub(after));
        8 * fewer(self.before.stts, self.after.stts) + 12 * fewer(self.before.stsc, self.after.stsc)
    }
}

/// Writes the film to OUT, which is never the film itself nor another one, and reports what was freed.
pub fn compact(film: &Film, movie: &Movie, name: &OsStr, to: Answer) -> Result<(), Failure> {
    let not_written = |error| Failure::NotWritten(name.to_owned(), error);
    let kept = |words: &str| Err(not_written(io::Error::new(io::ErrorKind::AlreadyExists, words)));
    if same_file(name, to.file) {
        return kept("this is the film itself");
    }
    // A film that was written here before is as long as this one.
    let length = fs::metadata(name).map_or(0, |there| there.len());
    if output::is_film(name.as_ref()) && length != movie.film().length() {
        return kept("this is another film; name another OUT");
    }
    let moov = movie.compact()?;
    let tracks = compacted(movie, &moov)?;
    output::replace_with(name.as_ref(), |out| film.copy_with(&moov, out)).map_err(not_written)?;
    report(&tracks, moov.len() as u64, name, to)
}

/// The tables of each track before and after.
fn compacted(movie: &Movie, moov: &[u8]) -> Result<Vec<Compacted>, Failure> {
    let after = Movie::open(Lent::Moov { moov, length: movie.film().length() })?;
    let track = |id| {
        let entries = |movie: &Movie| movie.opened(id).map(|track| track.table_entries());
        Ok(Compacted { id, before: entries(movie)?, after: entries(&after)? })
    };
    movie.tracks().iter().map(|of| track(of.id)).collect()
}

fn report(tracks: &[Compacted], moov_bytes: u64, name: &OsStr, to: Answer) -> Result<(), Failure> {
    let freed: u64 = tracks.iter().map(Compacted::freed).sum();
    if to.json {
        return to.document(|o| {
            o.name("out", name)?.put("moov_bytes", moov_bytes)?.put("freed", freed)?;
            o.list("tracks", tracks, fields).map(drop)
        });
    }
    let columns =
        [number("track"), number("stts"), number("now"), number("stsc"), number("now"), number("bytes freed")];
    table::write(to.out, columns, tracks, |track| {
        let Compacted { id, before, after } = track;
        let entries = [before.stts, after.stts, before.stsc, after.stsc].map(|entries| entries.to_string());
        let [stts, new_stts, stsc, new_stsc] = entries;
        [id.to_string(), stts, new_stts, stsc, new_stsc, track.freed().to_string()]
    })?;
    let words = match freed {
        0 => format!("nothing to free: {} is a copy of the film", crate::input::named(name)),
        _ => format!("{freed} of the moov's {moov_bytes} bytes are free now; no offset has moved, and slips of the film stay good"),
    };
    Ok(writeln!(to.out, "{words}")?)
}

fn fields(o: &mut Object, track: &Compacted) -> io::Result<()> {
    let Compacted { id, before, after } = track;
    o.put("id", id.0)?.put("freed", track.freed())?;
    let entries =
        |o: &mut Object, (before, after): &(u32, u32)| o.put("before", *before)?.put("after", *after).map(drop);
    o.object("stts_entries", Some(&(before.stts, after.stts)), entries)?;
    o.object("stsc_entries", Some(&(before.stsc, after.stsc)), entries).map(drop)
}
