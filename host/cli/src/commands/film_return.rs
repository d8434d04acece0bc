//! The quarter's film return: the totals of all films named.
mod jobs;
mod joined;

use super::{refusal_fields, told, told_of};
use crate::args::Request;
use crate::failure::{in_words, worse, Failure};
use crate::film::{Film, Fragments};
use crate::films::{csv_field, Films, List, ENDINGS};
use crate::input;
use crate::json::{document, Object, Subject};
use crate::progress::Progress;
use crate::time::clock_of;
use crate::warnings;
use chaldoref::{FilmReturn, FourCC, Refusal};
use std::ffi::{OsStr, OsString};
use std::io::{self, Write};

/// What a return is of beside the films that are named, and how it is printed.
pub struct Options {
    pub list: Option<List>,
    /// A line for each film instead of the totals.
    pub csv: bool,
    /// The lines of zero too.
    pub all: bool,
    /// As many films are read at once.
    pub jobs: usize,
    /// The files are returns, and are joined.
    pub join: bool,
}

/// What became of a film.
struct Filed {
    name: OsString,
    verdict: Verdict,
    /// What it adds to the return.
    tracks: u64,
    samples: u64,
    bytes: u64,
    /// The film time of its tracks, in milliseconds, by their subtype; told only where it is asked for.
    times: Vec<(FourCC, u64)>,
}

enum Verdict {
    Accepted,
    /// What lies in fragments is not counted.
    InPart(Fragments),
    /// Counted under its number.
    Refused(Failure),
    /// Not counted at all.
    Skipped(Failure),
}

/// Files the films, in their order, and prints the totals or a line for each film. A film that is not accepted is named on standard error, and why.
pub fn film_return(request: &Request, options: &Options, out: &mut dyn Write) -> Result<(), Failure> {
    if options.join {
        return joined::join(request, options.all, out);
    }
    let listed = match options.list.as_ref().map(|list| (list, list.names())) {
        Some((list, Err(error))) => return no_list(&list.name, error, request.json, out),
        Some((_, Ok(names))) => names,
        None => Vec::new(),
    };
    let films = Films::named(request.files.iter().cloned().chain(listed));
    let mut done = tell_folders(&films);
    let (mut filed, mut progress) = (Vec::new(), Progress::of_films(films.names.len()));
    let totals = jobs::file_all(&films.names, options, |film| {
        if !matches!(film.verdict, Verdict::Accepted) {
            progress.clear();
            done = worse(std::mem::replace(&mut done, Ok(())), film.tell());
        }
        progress.add(1);
        if options.csv || !matches!(film.verdict, Verdict::Accepted) {
            filed.push(film);
        }
    });
    progress.end();
    filed.extend(films.unread.into_iter().map(|(name, error)| Filed::skipped(name, Failure::Input(error))));
    let printed = match request.json {
        true => documented(&totals, &filed, out),
        false if options.csv => lines(&filed, out),
        false => print(&totals, &filed, options.all, out),
    };
    worse(printed.map_err(Failure::from), done)
}

/// The list of films cannot be read.
fn no_list(name: &OsStr, error: io::Error, json: bool, out: &mut dyn Write) -> Result<(), Failure> {
    let failure = Failure::Input(error);
    if json {
        super::failed(&failure, Subject { file: Some(name), ..Subject::default() }, out)?;
    }
    Err(told(name, failure))
}

/// Tells which folders cannot be read, and which have other files.
fn tell_folders(films: &Films) -> Result<(), Failure> {
    for (name, count) in &films.others {
        let files = if *count == 1 { "1 file is" } else { &format!("{count} files are") };
        let ends = ENDINGS.map(|end| format!(".{end}")).join(", ");
        warnings::tell(&[format!("{}: {files} not named as films ({ends}), and not counted", input::called(name))]);
    }
    for (name, error) in &films.unread {
        let words = format!("chaldoref: {}: {}\n", input::called(name), in_words(error));
        // Where standard error cannot be written, the status alone tells.
        let _ = io::stderr().write_all(words.as_bytes());
    }
    if films.unread.is_empty() {
        return Ok(());
    }
    Err(Failure::Skipped { unread: true })
}

/// The fragments of a film that was counted, if it has any or announces some.
fn fragments(film: &Film) -> Option<Fragments> {
    let announced = || film.names_mvex().then(|| film.movie().ok()).flatten().and_then(|movie| film.fragments(&movie));
    film.present_fragments().or_else(announced)
}

/// Counts a film.
fn file(name: OsString, totals: &mut FilmReturn, timed: bool) -> Filed {
    let before = totals.clone();
    let film = match Film::read(&name) {
        Ok(film) => film,
        Err(error) => return Filed::skipped(name, Failure::Input(error)),
    };
    if let Err(refusal) = film.file(totals) {
        return Filed::skipped(name, refusal.into());
    }
    let mut filed = Filed {
        name,
        verdict: fragments(&film).map_or(Verdict::Accepted, Verdict::InPart),
        tracks: totals.tracks() - before.tracks(),
        samples: totals.samples() - before.samples(),
        bytes: totals.bytes() - before.bytes(),
        times: Vec::new(),
    };
    if totals.accepted() == before.accepted() {
        let number = totals.refused().zip(before.refused()).find(|((_, now), (_, then))| now > then);
        let refusal = number.map_or(Refusal::FileTooLong, |((refusal, _), _)| refusal);
        filed.verdict = Verdict::Refused(film.explained(refusal));
    } else if timed {
        filed.times = times(&film);
    }
    filed
}

/// The film time of each subtype, in order of first meeting.
fn times(film: &Film) -> Vec<(FourCC, u64)> {
    let mut times: Vec<(FourCC, u64)> = Vec::new();
    let Ok(movie) = film.movie() else { return times };
    for track in movie.tracks() {
        let milliseconds = u64::from(track.total.0) * 1000 / u64::from(track.scale);
        match times.iter_mut().find(|(subtype, _)| *subtype == track.subtype) {
            Some((_, sum)) => *sum += milliseconds,
            None => times.push((track.subtype, milliseconds)),
        }
    }
    times
}

impl Filed {
    fn skipped(name: OsString, failure: Failure) -> Filed {
        Filed { name, verdict: Verdict::Skipped(failure), tracks: 0, samples: 0, bytes: 0, times: Vec::new() }
    }

    /// Tells on standard error why the film is not accepted, or not all of it counted; what is left is its exit status.
    fn tell(&self) -> Result<(), Failure> {
        match &self.verdict {
            Verdict::Accepted => Ok(()),
            Verdict::InPart(fragments) => {
                let (name, words) = (input::called(&self.name), fragments.in_words());
                warnings::tell(&[format!("{name}: {words}; the film is counted without them")]);
                Err(Failure::Skipped { unread: false })
            }
            Verdict::Refused(failure) | Verdict::Skipped(failure) => Err(told_of(&self.name, failure)),
        }
    }

    fn failure(&self) -> Option<&Failure> {
        match &self.verdict {
            Verdict::Refused(failure) | Verdict::Skipped(failure) => Some(failure),
            Verdict::Accepted | Verdict::InPart(_) => None,
        }
    }

    fn is_skipped(&self) -> bool {
        matches!(self.verdict, Verdict::Skipped(_))
    }

    fn verdict_in_words(&self) -> String {
        match &self.verdict {
            Verdict::Accepted => "accepted".into(),
            Verdict::InPart(_) => "accepted in part".into(),
            Verdict::Refused(failure) | Verdict::Skipped(failure) => {
                failure.refusal().map_or("not read".into(), |refusal| format!("refused {}", refusal.number()))
            }
        }
    }
}

/// The totals for people; a refusal that no film has is left out, unless all are asked for.
fn print(totals: &FilmReturn, filed: &[Filed], all: bool, out: &mut dyn Write) -> io::Result<()> {
    for film in filed.iter().filter(|film| film.is_skipped()) {
        writeln!(out, "skipped {}", input::shown(&film.name))?;
    }
    print_totals(totals, all, out)
}

fn print_totals(totals: &FilmReturn, all: bool, out: &mut dyn Write) -> io::Result<()> {
    writeln!(out, "accepted {}", totals.accepted())?;
    for (refusal, films) in totals.refused().filter(|(_, films)| all || *films > 0) {
        writeln!(out, "refused {} {films}", refusal.number())?;
    }
    writeln!(out, "tracks {}\nsamples {}\nbytes {}", totals.tracks(), totals.samples(), totals.bytes())?;
    totals.scales().try_for_each(|(scale, units)| {
        let time = clock_of(units, scale.into());
        writeln!(out, "scale {scale} {units} {time}")
    })
}

/// A line for each film, with a column of film time for each subtype met.
fn lines(filed: &[Filed], out: &mut dyn Write) -> io::Result<()> {
    let mut subtypes: Vec<FourCC> = Vec::new();
    for (subtype, _) in filed.iter().flat_map(|film| &film.times) {
        if !subtypes.contains(subtype) {
            subtypes.push(*subtype);
        }
    }
    write!(out, "file,verdict,tracks,samples,bytes")?;
    for subtype in &subtypes {
        out.write_all(b",")?;
        out.write_all(&csv_field(OsStr::new(&format!("{subtype} time"))))?;
    }
    out.write_all(b"\n")?;
    for film in filed {
        let Filed { tracks, samples, bytes, .. } = film;
        out.write_all(&csv_field(&film.name))?;
        write!(out, ",{},{tracks},{samples},{bytes}", film.verdict_in_words())?;
        for subtype in &subtypes {
            let time = film.times.iter().find(|(own, _)| own == subtype);
            write!(out, ",{}", time.map_or(String::new(), |(_, milliseconds)| clock_of(*milliseconds, 1000)))?;
        }
        out.write_all(b"\n")?;
    }
    Ok(())
}

fn documented(totals: &FilmReturn, filed: &[Filed], out: &mut dyn Write) -> io::Result<()> {
    let names = |keep: fn(&Filed) -> bool| -> Vec<&OsStr> {
        filed.iter().filter(|film| keep(film)).map(|film| film.name.as_os_str()).collect()
    };
    let (skipped, fragmented) = (names(Filed::is_skipped), names(|film| matches!(film.verdict, Verdict::InPart(_))));
    let failed: Vec<&Filed> = filed.iter().filter(|film| film.failure().is_some()).collect();
    let refused: Vec<(Refusal, u64)> = totals.refused().collect();
    let scales: Vec<(u32, u64)> = totals.scales().collect();
    document(out, Subject::default(), |o| {
        o.names("skipped", &skipped)?.names("fragmented", &fragmented)?;
        o.list("not_accepted", &failed, |o, film| failed_fields(o, film))?.put("accepted", totals.accepted())?;
        o.list("refused", &refused, refused_fields)?;
        o.put("tracks", totals.tracks())?.put("samples", totals.samples())?.put("bytes", totals.bytes())?;
        o.list("scales", &scales, scale_fields).map(drop)
    })
}

/// A film that is not accepted, whether it is counted under a number, and why.
fn failed_fields(o: &mut Object, film: &Filed) -> io::Result<()> {
    o.name("file", &film.name)?.put("counted", !film.is_skipped())?;
    match film.failure() {
        Some(Failure::Film(refusal, why, _)) => refusal_fields(o, *refusal)?.put("explanation", why.clone()).map(drop),
        Some(Failure::Refused(refusal, _)) => refusal_fields(o, *refusal).map(drop),
        Some(Failure::Input(error)) => o.put("error", in_words(error)).map(drop),
        _ => Ok(()),
    }
}

fn refused_fields(o: &mut Object, (refusal, films): &(Refusal, u64)) -> io::Result<()> {
    o.put("refusal", refusal.number())?.put("films", *films).map(drop)
}

fn scale_fields(o: &mut Object, (scale, units): &(u32, u64)) -> io::Result<()> {
    o.put("scale", *scale)?.time("total", *units, *scale).map(drop)
}
