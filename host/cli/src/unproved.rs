//! What people ask first of a film and no rule speaks of: the formats of its descriptions, the picture's size, the handler's name, the file's length. It is read
//! here from the atoms, not proved, and marked so; no answer follows from it.
use crate::atoms::{self, Trak};
use crate::input;
use crate::json::Object;
use chaldoref::{FourCC, Movie};
use std::io::{self, Write};

/// As many formats are shown of a track.
const SHOWN: usize = 8;

struct Seen {
    id: u32,
    formats: Vec<String>,
    picture: Option<(u32, u32)>,
    handler: Option<String>,
}

/// What is seen of each track, in file order.
fn seen(movie: &Movie) -> Vec<Seen> {
    let track = |trak: Trak| {
        let descriptions = trak.descriptions();
        let picture =
            descriptions.first().and_then(|first| atoms::number(first, 28)).map(|size| (size >> 16, size & 0xffff));
        Seen {
            id: trak.id().unwrap_or_default(),
            formats: trak.formats().iter().map(FourCC::to_string).collect(),
            picture: picture.filter(|_| trak.subtype() == *b"vide"),
            handler: trak.handler_name().filter(|name| !name.is_empty()),
        }
    };
    atoms::traks(movie.film().lent()).map(track).collect()
}

/// For people: a line for the file, and one for each track.
pub fn print(movie: &Movie, out: &mut dyn Write) -> io::Result<()> {
    let length = movie.film().length();
    writeln!(out, "not proved: the file has {length} byte{}", if length == 1 { "" } else { "s" })?;
    for track in seen(movie) {
        writeln!(out, "not proved: track {} {}", track.id, in_words(&track))?;
    }
    Ok(())
}

fn in_words(track: &Seen) -> String {
    let more = if track.formats.len() > SHOWN { ", .." } else { "" };
    let formats = track.formats.iter().take(SHOWN).cloned().collect::<Vec<_>>().join(", ") + more;
    let mut words = if formats.is_empty() { "has no description".into() } else { format!("is {formats}") };
    if let Some((width, height)) = track.picture {
        words += &format!(", {width} x {height} pixels");
    }
    if let Some(name) = &track.handler {
        words += &format!(", handler name '{}'", input::shown(name.as_ref()));
    }
    words
}

/// For machines.
pub fn fields(o: &mut Object, movie: &Movie) -> io::Result<()> {
    o.put("length", movie.film().length())?.list("tracks", &seen(movie), |o, track| {
        o.put("id", track.id)?.texts("formats", &track.formats)?;
        o.put("width", track.picture.map(|(width, _)| width))?
            .put("height", track.picture.map(|(_, height)| height))?;
        o.put("handler_name", track.handler.clone()).map(drop)
    })?;
    Ok(())
}
