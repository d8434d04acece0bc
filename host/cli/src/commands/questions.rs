//! Tracks, samples, times and profiles.
use super::edits::{header_fields, header_in_words};
use super::{of_each, part_in_words, scale, Answer, CLOCK};
use crate::failure::Failure;
use crate::film::Film;
use crate::json::{Object, Value};
use crate::table::{self, number, text};
use crate::time::{clock, plain_in_words, Time};
use crate::unproved;
use crate::warnings;
use chaldoref::{Movie, MovieTime, ProfileRecord, Refusal, Shown, Track, TrackId};
use std::io::{self, Write};

pub fn tracks(movie: &Movie, to: Answer) -> Result<(), Failure> {
    let warnings = warnings::of_tracks(movie, to.fragments);
    to.tell(&warnings);
    if to.json {
        return to.document(|o| {
            o.object("movie", Some(&movie.header()), header_fields)?;
            o.list("tracks", movie.tracks(), track_fields)?.texts("warnings", &warnings)?;
            o.object("unproved", Some(movie), unproved::fields).map(drop)
        });
    }
    let columns = [
        number("id"),
        text("subtype"),
        number("scale"),
        number("total"),
        CLOCK,
        number("samples"),
        number("chunks"),
        number("edits"),
        number("stored"),
    ];
    let row = |t: &Track| {
        let numbers = [t.scale, t.total.0, t.samples, t.chunks, t.edits, t.stored.0].map(|n| n.to_string());
        let [scale, total, samples, chunks, edits, stored] = numbers;
        let subtype = t.subtype.to_string();
        [t.id.to_string(), subtype, scale, total, clock(t.total, t.scale), samples, chunks, edits, stored]
    };
    table::write(to.out, columns, movie.tracks(), row)?;
    writeln!(to.out, "{}", header_in_words(&movie.header()))?;
    Ok(unproved::print(movie, to.out)?)
}

fn track_fields(o: &mut Object, t: &Track) -> io::Result<()> {
    o.put("id", t.id.0)?.put("subtype", t.subtype.to_string())?.put("scale", t.scale)?;
    o.time("total", t.total.0, t.scale)?.put("samples", t.samples)?.put("chunks", t.chunks)?.put("edits", t.edits)?;
    o.time("stored", t.stored.0, t.scale).map(drop)
}

pub fn sample_bytes(film: &Film, movie: &Movie, track: TrackId, n: u32, to: Answer) -> Result<(), Failure> {
    film.copy(&[movie.sample_range(track, n)?], to.out)
}

pub fn at(movie: &Movie, track: TrackId, time: &Time, to: Answer) -> Result<(), Failure> {
    let (time, at) = last_at_end(movie, track, time).ask(movie, track, |time| movie.sample_at(track, time))?;
    let sample = movie.sample(track, at.sample)?;
    let scale = scale(movie, track)?;
    let warnings = warnings::of_ctts(movie, track, "the sample is the one at that decode time");
    to.tell(&warnings);
    if to.json {
        return to.document(|o| {
            o.put("track", track.0)?.time("media_time", time.0, scale)?.put("sample", at.sample)?;
            o.time("decode", sample.decode.0, scale)?.time("duration", sample.duration, scale)?;
            o.put("entry", at.entry)?.texts("warnings", &warnings).map(drop)
        });
    }
    let numbers = [at.sample, sample.decode.0, sample.duration, at.entry].map(|n| n.to_string());
    let [n, decode, duration, entry] = numbers;
    let row = [time.to_string(), clock(time, scale), n, decode, duration, entry];
    let columns =
        [number("media time"), CLOCK, number("sample"), number("decode"), number("duration"), number("stts entry")];
    Ok(table::write(to.out, columns, &[row], |row| row.clone())?)
}

/// A sample is asked at the end of a track as at its last unit: at the end itself there is none.
fn last_at_end(movie: &Movie, track: TrackId, time: &Time) -> Time {
    match (time, movie.track(track)) {
        (Time::End, Some(track)) => Time::Units(track.total.0.saturating_sub(1)),
        (other, _) => other.clone(),
    }
}

pub fn map(movie: &Movie, track: TrackId, asked: &Time, to: Answer) -> Result<(), Failure> {
    let time = asked.of_movie(movie)?;
    let shown = movie.media_time(track, time).map_err(|refusal| outside(movie, asked, time, refusal))?;
    let media = match shown {
        Shown::At(media) => Some(media),
        Shown::Nothing => None,
    };
    let scale = scale(movie, track)?;
    if to.json {
        return to.document(|o| {
            o.put("track", track.0)?.put("movie_time", time.0)?;
            match media {
                Some(media) => o.time("media_time", media.0, scale),
                None => o.no_time("media_time"),
            }
            .map(drop)
        });
    }
    let [shown, start] = match media {
        Some(media) => [media.to_string(), clock(media, scale)],
        None => ["nothing".into(), "-".into()],
    };
    let columns = [number("movie time"), number("media time"), CLOCK];
    Ok(table::write(to.out, columns, &[[time.to_string(), shown, start]], |row| row.clone())?)
}

/// The refusal of a movie time; it says the units.
fn outside(movie: &Movie, asked: &Time, time: MovieTime, refusal: Refusal) -> Failure {
    match refusal {
        Refusal::Outside => {
            let plain = if asked.is_plain() { plain_in_words(movie.header().scale) } else { String::new() };
            Failure::Refused(refusal, Some(format!("movie time {time} was asked{plain}")))
        }
        other => other.into(),
    }
}

/// A stored profile: the movie's, or a track's.
struct Profile {
    track: Option<TrackId>,
    records: Vec<ProfileRecord>,
}

/// The profile of a track, or all that the film has.
pub fn profile(movie: &Movie, track: Option<TrackId>, to: Answer) -> Result<(), Failure> {
    let first = match track {
        Some(track) => movie.profile(track)?,
        None => movie.movie_profile(),
    };
    let tracks = match track {
        Some(_) => Vec::new(),
        None => of_each(movie, None, |track| Ok(Profile { track: Some(track.id), records: movie.profile(track.id)? }))?,
    };
    let first = Profile { track, records: first };
    if to.json {
        return to.document(|o| {
            profile_fields(o, &first)?;
            if track.is_none() {
                o.list("tracks", &tracks, profile_fields)?;
            }
            Ok(())
        });
    }
    let all: Vec<Profile> = [first].into_iter().chain(tracks).collect();
    Ok(print_profiles(&all, track, to.out)?)
}

/// Each profile that has records, under its name where several may be there; that there is none is said.
fn print_profiles(all: &[Profile], asked: Option<TrackId>, out: &mut dyn Write) -> io::Result<()> {
    let mut there = all.iter().filter(|profile| !profile.records.is_empty()).peekable();
    let of =
        |track: Option<TrackId>| track.filter(|id| id.0 > 0).map_or("the movie".into(), |id| format!("track {id}"));
    if there.peek().is_none() {
        let whose = asked.map_or("the film".into(), |track| of(Some(track)));
        return writeln!(out, "{whose} has no profile");
    }
    let columns = [text("part"), text("code"), number("value"), text("hex")];
    let row = |r: &ProfileRecord| {
        [part_in_words(r.part), r.code.to_string(), r.value.to_string(), format!("{:#010x}", r.value)]
    };
    there.try_for_each(|profile| {
        if asked.is_none() {
            writeln!(out, "{}:", of(profile.track))?;
        }
        table::write(out, columns, &profile.records, row)
    })
}

fn profile_fields(o: &mut Object, profile: &Profile) -> io::Result<()> {
    let track = profile.track.map_or(Value::Null, |track| track.0.into());
    o.put("track", track)?.list("records", &profile.records, record_fields).map(drop)
}

fn record_fields(o: &mut Object, r: &ProfileRecord) -> io::Result<()> {
    o.put("part", r.part)?.put("code", r.code.to_string())?.put("value", r.value).map(drop)
}
