//! Whether films keep the quay film profile.
use super::{told, Answer};
use crate::args::Request;
use crate::failure::{worse, Failure};
use crate::film::{Film, Fragments};
use crate::input;
use crate::json::Object;
use crate::quay::{self, Break};
use crate::table::{self, text};
use crate::warnings;
use chaldoref::{LeaveOut, Movie, QuayFault};
use std::ffi::OsStr;
use std::io::{self, Write};

/// What is said below places.
const NOT_PROVED: &str = "not proved: where a rule is broken, which was found by stepping through the tracks";

/// The verdict on one film. With all, every rule that is broken.
pub fn check_quay(movie: &Movie, all: bool, to: Answer) -> Result<(), Failure> {
    let fault = movie.check_quay();
    let breaks = quay::breaks(movie, fault);
    let in_part = in_part(to.left_out, to.fragments);
    let printed = if to.json {
        document(fault, &breaks, all, to)
    } else {
        print(fault, &breaks, all, in_part.as_deref(), to.out).map_err(Failure::from)
    };
    worse(verdict(fault, in_part.is_some()), printed)
}

/// A film that is read in part does not keep the profile by what was read alone.
fn verdict(fault: Option<QuayFault>, in_part: bool) -> Result<(), Failure> {
    if fault.is_none() && !in_part {
        Ok(())
    } else {
        Err(Failure::NotAllGood { unread: false })
    }
}

/// What was not judged, in words, if anything was not.
pub(super) fn in_part(left_out: &[LeaveOut], fragments: Option<Fragments>) -> Option<String> {
    let left_out = warnings::left_out(left_out).map(|parts| format!("{parts} left out"));
    let fragments = fragments.map(|fragments| match fragments.count {
        0 => fragments.unread_in_words(),
        _ => NOT_JUDGED.into(),
    });
    let all: Vec<String> = left_out.into_iter().chain(fragments).collect();
    (!all.is_empty()).then(|| all.join("; "))
}

fn document(fault: Option<QuayFault>, breaks: &[Break], all: bool, to: Answer) -> Result<(), Failure> {
    let is_in_part = in_part(to.left_out, to.fragments).is_some();
    to.document(|o| {
        let is_judged = fault.is_some() || !is_in_part;
        o.put("keeps", is_judged.then_some(fault.is_none()))?.put("rule", fault.map(|fault| fault.rule.number()))?;
        o.put("words", fault.map(|fault| fault.rule.to_string()))?;
        o.put("track", fault.and_then(|fault| fault.track).map(|track| track.0))?;
        o.object("place", breaks.first(), place_fields)?;
        if all {
            o.list("broken", breaks, |o, broken| {
                o.put("rule", broken.rule.number())?.put("words", broken.rule.to_string())?;
                o.put("track", broken.track.map(|track| track.0))?.object("place", Some(broken), place_fields).map(drop)
            })?;
        }
        Ok(())
    })
}

fn place_fields(o: &mut Object, broken: &Break) -> io::Result<()> {
    match broken.place.sample {
        Some((n, time, scale)) => o.put("sample", n)?.time("time", time.0, scale)?,
        None => o.put("sample", None::<u32>)?.no_time("time")?,
    };
    o.put("words", broken.place.words.clone())?.put("proved", false).map(drop)
}

fn print(
    fault: Option<QuayFault>,
    breaks: &[Break],
    all: bool,
    in_part: Option<&str>,
    out: &mut dyn Write,
) -> io::Result<()> {
    let Some(fault) = fault else {
        return match in_part {
            Some(words) => {
                writeln!(out, "what was read keeps the quay film profile; the film was not judged whole: {words}")
            }
            None => writeln!(out, "the film keeps the quay film profile"),
        };
    };
    let shown = if all { breaks } else { &breaks[..breaks.len().min(1)] };
    if shown.is_empty() {
        return writeln!(out, "{}", sentence(fault, ""));
    }
    for broken in shown {
        let fault = QuayFault::new(broken.rule, broken.track);
        writeln!(out, "{}", sentence(fault, &broken.place.in_words()))?;
    }
    writeln!(out, "{NOT_PROVED}{}", if shown.len() > 1 { "; the first line's rule and track are proved" } else { "" })
}

/// What the verdict does not say.
const NOT_JUDGED: &str = "what lies in fragments was not judged";

pub(super) fn sentence(fault: QuayFault, place: &str) -> String {
    let by = fault.track.map_or("the movie".into(), |track| format!("track {track}"));
    format!("rule {} ({}): broken by {by}{place}", fault.rule.number(), quay::in_words(fault.rule))
}

/// A row of the table of several films.
type Row = [String; 5];

/// The verdicts on several films as one table; why one is refused is told below it on standard error.
pub fn check_quay_table(request: &Request, all: bool, out: &mut dyn Write) -> Result<(), Failure> {
    if let Some(parts) = warnings::left_out(&request.leave_out) {
        warnings::say(&format!("the films are read without {parts}"));
    }
    let (mut rows, mut done): (Vec<Row>, _) = (Vec::new(), Ok(()));
    for name in &request.files {
        match rows_of(request, name, all) {
            Ok((fault, in_part, more)) => {
                rows.extend(more);
                done = worse(done, verdict(fault, in_part));
            }
            Err(failure) => {
                let verdict =
                    failure.refusal().map_or("not read".into(), |refusal| format!("refused {}", refusal.number()));
                rows.push(row(name, &verdict, ["-", "-", "-"].map(String::from)));
                done = worse(done, Err(told(name, failure)));
            }
        }
    }
    let columns = [text("film"), text("verdict"), text("rule"), text("track"), text("where")];
    table::write(out, columns, &rows, Row::clone)?;
    if rows.iter().any(|row| row[1] == BREAKS) {
        writeln!(out, "{NOT_PROVED}")?;
    }
    done
}

const BREAKS: &str = "breaks it";

/// The rule that a film breaks, whether it was read in part, and its rows.
fn rows_of(request: &Request, name: &OsStr, all: bool) -> Result<(Option<QuayFault>, bool, Vec<Row>), Failure> {
    let film = Film::read(name).map_err(Failure::Input)?.leaving_out(&request.leave_out)?;
    let movie = film.movie()?;
    let in_part = in_part(&request.leave_out, film.fragments(&movie));
    let Some(fault) = movie.check_quay() else {
        let verdict = if in_part.is_some() { "not judged whole" } else { "keeps it" };
        let note = in_part.as_deref().unwrap_or("-");
        return Ok((None, in_part.is_some(), vec![row(name, verdict, ["-", "-", note].map(String::from))]));
    };
    let breaks = quay::breaks(&movie, Some(fault));
    let broken = |fault: QuayFault, place: String| {
        let track = fault.track.map_or("-".into(), |track| track.to_string());
        let rule = format!("{} ({})", fault.rule.number(), quay::in_words(fault.rule));
        row(name, BREAKS, [rule, track, place])
    };
    let shown = if all { breaks.len() } else { breaks.len().min(1) };
    let mut rows: Vec<Row> = breaks[..shown]
        .iter()
        .map(|one| {
            broken(QuayFault::new(one.rule, one.track), one.place.in_words().trim_start_matches([':', ' ']).into())
        })
        .collect();
    if rows.is_empty() {
        rows.push(broken(fault, "-".into()));
    }
    Ok((Some(fault), in_part.is_some(), rows))
}

fn row(name: &OsStr, verdict: &str, [rule, track, place]: [String; 3]) -> Row {
    [input::called(name), verdict.into(), rule, track, place]
}
