//! What each command prints, for people and for machines.
mod check;
mod check_profile;
mod check_quay;
mod compact;
mod edits;
mod features;
mod film_return;
mod questions;
mod ranges;
mod rates;
mod report;
mod samples;
mod slips;

pub use check_quay::check_quay_table;
pub use film_return::{film_return, Options as ReturnOptions};
pub use ranges::hash_name;
pub use report::report;

use crate::args::{Ask, Request};
use crate::failure::{in_words, Failure};
use crate::film::{Film, Fragments};
use crate::input;
use crate::json::{document, Object, Subject};
use crate::table::{number, Column};
use crate::warnings;
use chaldoref::{LeaveOut, Movie, Refusal, Track, TrackId, UNIVERSAL_PART};
use std::ffi::OsStr;
use std::fs;
use std::io::{self, Write};
use std::os::unix::fs::MetadataExt;

/// Where an answer goes, in which form, and the name of the file that it is of.
struct Answer<'w> {
    out: &'w mut dyn Write,
    json: bool,
    file: &'w OsStr,
    /// The parts of the film that are left out.
    left_out: &'w [LeaveOut],
    /// What of the film is not read, since it lies in fragments.
    fragments: Option<Fragments>,
    /// Whether other files are asked too.
    beside_others: bool,
}

impl<'w> Answer<'w> {
    /// What its documents are of.
    fn subject(&self) -> Subject<'w> {
        Subject { file: Some(self.file), left_out: self.left_out, fragmented: self.fragments.is_some() }
    }

    /// Tells on standard error which parts of the film are left out, if there are any, and that its slips are to be checked so.
    fn tell_left_out(&self, ask: &Ask) {
        let slip = if matches!(ask, Ask::Slip { .. }) { "; check this slip with the same --leave-out" } else { "" };
        if let Some(parts) = warnings::left_out(self.left_out) {
            warnings::say(&format!("{} is read without {parts}{slip}", input::called(self.file)));
        }
    }

    /// The answer, for machines.
    fn document(self, fields: impl FnOnce(&mut Object) -> io::Result<()>) -> Result<(), Failure> {
        let of = self.subject();
        Ok(document(self.out, of, fields)?)
    }

    /// Tells warnings on standard error, with the file's name where there are others.
    fn tell(&self, warnings: &[String]) {
        if !self.beside_others {
            return warnings::tell(warnings);
        }
        let named: Vec<String> =
            warnings.iter().map(|words| format!("{}: {words}", input::called(self.file))).collect();
        warnings::tell(&named);
    }
}

/// Writes the name of a file above its answer, and so nothing where it has none.
struct Named<'w> {
    out: &'w mut dyn Write,
    name: Option<String>,
}

impl Write for Named<'_> {
    fn write(&mut self, bytes: &[u8]) -> io::Result<usize> {
        if let Some(name) = self.name.take() {
            writeln!(self.out, "{name}:")?;
        }
        self.out.write(bytes)
    }

    fn flush(&mut self) -> io::Result<()> {
        self.out.flush()
    }
}

/// Answers a request of the file of that name on standard output. Of several files each answer has its name before it.
pub fn run(request: &Request, name: &OsStr, out: &mut dyn Write) -> Result<(), Failure> {
    if request.json || request.files.len() == 1 {
        return answer(request, name, out);
    }
    answer(request, name, &mut Named { out, name: Some(input::called(name)) })?;
    Ok(writeln!(out)?)
}

fn answer(request: &Request, name: &OsStr, out: &mut dyn Write) -> Result<(), Failure> {
    let beside_others = request.files.len() > 1;
    let left_out = &request.leave_out[..];
    let to = Answer { out, json: request.json, file: name, left_out, fragments: None, beside_others };
    if let Ask::ReadSlip { hex } = request.ask {
        let file = input::read(name).map_err(Failure::Input)?;
        let bytes = if hex { input::from_hex(&file) } else { input::slip(file) };
        return slips::read(&bytes.map_err(Failure::Input)?, to);
    }
    let film = Film::read(name).map_err(Failure::Input)?.leaving_out(&request.leave_out)?;
    to.tell_left_out(&request.ask);
    answer_of(&film, &request.ask, to)
}

/// Asks a film.
fn answer_of(film: &Film, ask: &Ask, mut to: Answer) -> Result<(), Failure> {
    // The slip writer reads strictly, so that its refusal of the film is the one to tell.
    let movie = &if matches!(ask, Ask::Slip { .. }) { film.filed()? } else { film.movie()? };
    to.fragments = film.fragments(movie);
    // Those two say it in their own words.
    if !matches!(ask, Ask::Tracks | Ask::Check { .. }) {
        to.tell(&warnings::of_fragments(to.fragments));
    }
    asked(film, movie, ask, to).map_err(|failure| hinted(movie, ask, failure))
}

/// Adds to the refusal of a track or a sample that is not there which there are.
fn hinted(movie: &Movie, ask: &Ask, failure: Failure) -> Failure {
    let samples = |id: TrackId| {
        let track = movie.track(id)?;
        Some(match track.samples {
            0 => format!("track {id} has no samples"),
            count => format!("track {id} has the samples 1 to {count}"),
        })
    };
    let hint = match (&failure, ask) {
        (Failure::Refused(Refusal::NoTrack, None), _) => Some(tracks_in_words(movie)),
        (Failure::Refused(Refusal::Outside, None), Ask::Sample { track, .. } | Ask::Samples { track, .. }) => {
            samples(*track)
        }
        _ => None,
    };
    match failure {
        Failure::Refused(refusal, None) => Failure::Refused(refusal, hint),
        other => other,
    }
}

/// The tracks that a film has.
fn tracks_in_words(movie: &Movie) -> String {
    let ids: Vec<String> = movie.tracks().iter().map(|track| track.id.to_string()).collect();
    match ids.split_last() {
        None => "the film has no tracks".into(),
        Some((one, [])) => format!("the film has track {one}"),
        Some((last, others)) => format!("the film has tracks {} and {last}", others.join(", ")),
    }
}

/// Puts the question.
fn asked(film: &Film, movie: &Movie, ask: &Ask, to: Answer) -> Result<(), Failure> {
    match ask {
        Ask::Tracks => questions::tracks(movie, to),
        Ask::Sample { track, n, bytes: false } => samples::sample(movie, *track, *n, to),
        Ask::Sample { track, n, bytes: true } => questions::sample_bytes(film, movie, *track, *n, to),
        Ask::Samples { track, from, to: last, csv } => samples::samples(movie, *track, *from, *last, *csv, to),
        Ask::At { track, time } => questions::at(movie, *track, time, to),
        Ask::Map { track, time } => questions::map(movie, *track, time, to),
        Ask::Edits { track } => edits::edits(movie, *track, to),
        Ask::Features { track: Some(track), code: Some(code) } => features::feature(movie, *track, *code, to),
        Ask::Features { track, code } => features::features(movie, *track, *code, to),
        Ask::Profile { track } => questions::profile(movie, *track, to),
        Ask::CheckQuay { all } => check_quay::check_quay(movie, *all, to),
        Ask::CheckProfile { track } => check_profile::check_profile(movie, *track, to),
        Ask::Stretch { track, time, bytes: false } => ranges::stretch(movie, *track, time, to),
        Ask::Stretch { track, time, bytes: true } => ranges::stretch_bytes(film, movie, *track, time, to),
        Ask::Slip { track, time, out: None, hashed } => ranges::slip(film, movie, *track, time, *hashed, to),
        Ask::Slip { track, time, out: Some(name), hashed } => {
            ranges::file_slip(film, movie, (*track, time), (name, *hashed), to)
        }
        Ask::Rates { track, csv } => rates::rates(movie, *track, *csv, to),
        Ask::Compact { out } => compact::compact(film, movie, out, to),
        Ask::Check { slips } => check::check(film, movie, slips, to),
        Ask::ReadSlip { .. } => unreachable!("a slip is no film"),
        Ask::FilmReturn(_) | Ask::Report { .. } => unreachable!("it is of all films together"),
    }
}

/// Why there is no answer, for machines; the file is the one that was asked. A report that was printed, and output that could not be, give no
/// other document.
pub fn failed(failure: &Failure, of: Subject, out: &mut dyn Write) -> io::Result<()> {
    let explained = |o: &mut Object, refusal, why| {
        refusal_fields(o, refusal)?.put("explanation", why)?;
        hint_field(o, failure)
    };
    match failure {
        Failure::Film(refusal, why, _) => document(out, of, |o| explained(o, *refusal, why.clone())),
        Failure::Refused(refusal, _) => document(out, of, |o| explained(o, *refusal, None)),
        Failure::Malformed(fault) => document(out, of, |o| {
            slips::fault_fields(o, fault)?;
            hint_field(o, failure)
        }),
        Failure::Usage(wrong, _) => document(out, of, |o| o.put("error", wrong.clone()).map(drop)),
        Failure::Input(error) => document(out, of, |o| o.put("error", in_words(error)).map(drop)),
        Failure::NotWritten(..) | Failure::Output(_) | Failure::NotAllGood { .. } | Failure::Skipped { .. } => Ok(()),
    }
}

fn hint_field(o: &mut Object, failure: &Failure) -> io::Result<()> {
    unproved_words(o, "hint", failure.hint())
}

/// Words that are not proved, and say so.
fn unproved_words(o: &mut Object, key: &str, words: Option<&str>) -> io::Result<()> {
    o.object(key, words.as_ref(), |o, words| o.put("words", words.to_string())?.put("proved", false).map(drop))
        .map(drop)
}

fn refusal_fields<'o, 'w>(o: &'o mut Object<'w>, refusal: Refusal) -> io::Result<&'o mut Object<'w>> {
    o.put("refused", refusal.number())?.put("reason", refusal.to_string())
}

/// The column of a time beside its units.
const CLOCK: Column = number("hh:mm:ss.mmm");

/// Whether a name is one of the film's, which may be standard input. A file that is not there yet is no other's.
fn same_file(name: &OsStr, film: &OsStr) -> bool {
    let place = |file: fs::Metadata| (file.dev(), file.ino());
    let (one, other) = (fs::metadata(name).map(place), input::metadata(film).map(place));
    matches!((one, other), (Ok(one), Ok(other)) if one == other)
}

/// What is said of a track, or of each where none is named.
fn of_each<'m, T>(
    movie: &'m Movie,
    track: Option<TrackId>,
    say: impl Fn(&'m Track) -> Result<T, Failure>,
) -> Result<Vec<T>, Failure> {
    match track {
        Some(id) => Ok(vec![say(movie.track(id).ok_or(Refusal::NoTrack)?)?]),
        None => movie.tracks().iter().map(say).collect(),
    }
}

/// A part-ID of a profile, for people.
fn part_in_words(part: u32) -> String {
    if part == UNIVERSAL_PART {
        return "universal".into();
    }
    format!("{part:#010x}")
}

/// The time scale of a track that a question has been answered of.
fn scale(movie: &Movie, track: TrackId) -> Result<u32, Refusal> {
    movie.track(track).map(|track| track.scale).ok_or(Refusal::NoTrack)
}

/// Tells why a film among several has no answer; what is left is its exit status.
fn told(name: &OsStr, failure: Failure) -> Failure {
    told_of(name, &failure)
}

/// The same of a failure that is kept.
fn told_of(name: &OsStr, failure: &Failure) -> Failure {
    // Where standard error cannot be written, the status alone tells.
    let _ = io::stderr().write_all(failure.message(&input::called(name)).as_bytes());
    Failure::Skipped { unread: matches!(failure, Failure::Input(_)) }
}
