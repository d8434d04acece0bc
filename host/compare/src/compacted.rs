//! Films with compact tables: document 02, "every question gets the same answer before and after".
use crate::case::Difference;
use crate::films::{Asked, Bytes, Comparison};
use crate::question::Way;
use crate::steps::difference;
use reference::maker::Random;
use reference::movie::compact_film;
use reference::movie::tables::Movie;
use reference::movie::MoovAlone;

/// The movie without the entries of the tables that are written anew. Every answer follows from what is left, but for "Ask 8's count".
fn without_entries(movie: &Movie) -> Movie {
    let mut movie = movie.clone();
    for track in &mut movie.tracks {
        track.tables.stts.clear();
        track.tables.stsc.clear();
    }
    movie
}

/// Whether a table of some track has fewer entries in the second movie.
fn is_shorter(before: &Movie, after: &Movie, entries: impl Fn(&Movie, usize) -> usize) -> bool {
    (0..before.tracks.len()).any(|track| entries(after, track) < entries(before, track))
}

impl Comparison {
    /// Asks everything of the film with its moov written anew. The reference reads both films as the same movie, so the answers are those of before.
    pub fn compacted(&mut self, random: &mut Random, asked: &Asked, rounds: usize) -> Result<(), Box<Difference>> {
        let Ok(before) = &asked.film.movie else {
            return Ok(());
        };
        let lent = asked.bytes.lent();
        let compact = match asked.way {
            Way::Whole => compact_film(lent),
            Way::Moov(length) => compact_film(&MoovAlone { moov: lent, length }),
        };
        let film = compact.expect("the film is accepted");
        let bytes = Bytes::copy(random, &film);
        let again = Asked::of(&bytes, asked.way);
        let fault = |words| difference(asked.way, "compact", words);
        let after = again.film.movie.as_ref().map_err(|_| fault("the compact film is refused"))?;
        if without_entries(before) != without_entries(after) || again.film.strict != asked.film.strict {
            return Err(fault("the compact film reads as another movie"));
        }
        let stts = is_shorter(before, after, |movie, track| movie.tracks[track].tables.stts.len());
        let stsc = is_shorter(before, after, |movie, track| movie.tracks[track].tables.stsc.len());
        self.counts.compacted(stts, stsc);
        self.everything(random, &again, rounds)
    }
}
