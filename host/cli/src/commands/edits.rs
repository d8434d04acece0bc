//! The movie's own time, and the edit lists that put a track's media into it.
use super::{scale, Answer, CLOCK};
use crate::failure::Failure;
use crate::json::Object;
use crate::table::{self, number};
use crate::time::{clock, movie_clock};
use chaldoref::{Edit, Header, Movie, MovieTime, TrackId};
use std::io;

/// An entry, and the movie time at which it begins.
pub(super) struct Entry {
    pub start: u64,
    pub edit: Edit,
}

/// The entries of a track's edit list.
pub fn edits(movie: &Movie, track: TrackId, to: Answer) -> Result<(), Failure> {
    let entries = placed(&movie.edits(track)?);
    let (header, scale) = (movie.header(), scale(movie, track)?);
    if to.json {
        return to.document(|o| {
            o.put("track", track.0)?.put("movie_scale", header.scale)?.put("scale", scale)?;
            let fields = |o: &mut Object, entry: &Entry| entry_fields(o, entry, header.scale, scale);
            o.list("edits", &entries, fields).map(drop)
        });
    }
    let columns = [
        number("edit"),
        number("movie time"),
        CLOCK,
        number("duration"),
        CLOCK,
        number("media time"),
        CLOCK,
        number("rate"),
    ];
    let row = |(i, entry): &(usize, &Entry)| {
        let [start, length] =
            [entry.start, units(entry.edit.duration)].map(|time| (time.to_string(), movie_time(time, header.scale)));
        let [media, media_clock] = match entry.edit.start() {
            Some(media) => [media.to_string(), clock(media, scale)],
            None => ["nothing".into(), "-".into()],
        };
        [(i + 1).to_string(), start.0, start.1, length.0, length.1, media, media_clock, rate(&entry.edit)]
    };
    let numbered: Vec<(usize, &Entry)> = entries.iter().enumerate().collect();
    if entries.is_empty() {
        writeln!(to.out, "track {track} has no edit list: all of it is shown, from movie time 0 on")?;
    } else {
        table::write(to.out, columns, &numbered, row)?;
    }
    Ok(writeln!(to.out, "{}, track scale {scale}", header_in_words(&header))?)
}

/// The movie's time scale and stored duration, for people.
pub fn header_in_words(header: &Header) -> String {
    let Header { scale, stored, .. } = *header;
    format!("movie scale {scale}, stored duration {stored} ({})", movie_clock(stored, scale))
}

/// The same for machines.
pub fn header_fields(o: &mut Object, header: &Header) -> io::Result<()> {
    o.put("scale", header.scale)?.time("stored", header.stored.0, header.scale).map(drop)
}

/// Each entry begins where the one before it ends.
pub(super) fn placed(edits: &[Edit]) -> Vec<Entry> {
    let mut start = 0;
    let place = |edit: &Edit| {
        let entry = Entry { start, edit: *edit };
        start += units(edit.duration);
        entry
    };
    edits.iter().map(place).collect()
}

/// A duration, which is never negative.
pub(super) fn units(duration: i64) -> u64 {
    u64::try_from(duration).unwrap_or(0)
}

/// The durations of a track's edits total less than 2^32, so that each is a movie time.
pub(super) fn movie_time(time: u64, scale: u32) -> String {
    movie_clock(MovieTime(u32::try_from(time).unwrap_or(u32::MAX)), scale)
}

/// The rate, of which an accepted film has none but 1.
fn rate(edit: &Edit) -> String {
    format!("{}", edit.rate as f64 / 65536.0)
}

fn entry_fields(o: &mut Object, entry: &Entry, movie_scale: u32, scale: u32) -> io::Result<()> {
    let Entry { start, edit } = entry;
    o.time("movie_time", *start, movie_scale)?.time("duration", edit.duration, movie_scale)?;
    match edit.start() {
        Some(media) => o.time("media_time", media.0, scale)?,
        None => o.no_time("media_time")?,
    };
    o.put("rate", edit.rate).map(drop)
}

#[cfg(test)]
mod tests {
    use super::*;

    #[test]
    fn entries_follow_one_another() {
        let edits =
            [(60, -1), (0, 5), (4_294_967_235, 24)].map(|(duration, media)| Edit { duration, media, rate: 65536 });
        let starts: Vec<u64> = placed(&edits).iter().map(|entry| entry.start).collect();
        assert_eq!(starts, [0, 60, 60]);
        assert_eq!([rate(&edits[0]), rate(&Edit { rate: 32768, ..edits[0] })], ["1", "0.5"]);
    }
}
