//! One page about films, for a browser and for print: what the commands say of each, with pictures.
mod film;
mod made;
mod pictures;

use super::{hash_name, same_file, told};
use crate::args::Request;
use crate::checked::{Checked, Kind};
use crate::failure::{worse, Failure};
use crate::film::Film;
use crate::html::{self, escaped, table, Cell, Mark};
use crate::input;
use crate::output;
use crate::progress::Progress;
use chaldoref::Movie;
use std::ffi::{OsStr, OsString};
use std::io::{self, Write};

/// The headings of the summary.
const SUMMARY: [&str; 8] = [
    "film",
    "verdict",
    "tracks",
    "film time",
    "filed",
    "missing",
    "peak bit rate and the camera's claim",
    "quay film profile",
];

const STYLE: &str = include_str!("report/style.css");

/// The patterns that pictures use: what is hatched is told from what is filled without its colour.
const PATTERNS: &str = include_str!("report/patterns.svg");

/// What the page has of a film.
struct Told {
    row: Vec<Cell>,
    section: String,
    is_read: bool,
}

/// A slip that is good of no film yet, and why.
struct Loose<'n> {
    name: &'n OsStr,
    is_good: bool,
    reasons: Vec<String>,
}

/// Writes the page, whole or not at all, and says how many films it has.
pub fn report(request: &Request, slips: &[OsString], name: &OsStr, to: &mut dyn Write) -> Result<(), Failure> {
    not_over(request, slips, name).map_err(|error| Failure::NotWritten(name.to_owned(), error))?;
    let mut loose: Vec<Loose> = slips.iter().map(|name| Loose { name, is_good: false, reasons: Vec::new() }).collect();
    let (mut all, mut done, mut progress) = (Vec::new(), Ok(()), Progress::of_films(request.files.len()));
    for (i, file) in request.files.iter().enumerate() {
        let told_of = told_of(request, file, i + 1, &mut loose).unwrap_or_else(|failure| {
            let refused = film::refused(file, i + 1, &failure);
            progress.clear();
            done = worse(std::mem::replace(&mut done, Ok(())), Err(told(file, failure)));
            refused
        });
        all.push(told_of);
        progress.add(1);
    }
    progress.end();
    let read = all.iter().filter(|told| told.is_read).count();
    let page = |out: &mut std::fs::File| write_page(&all, &loose, &mut io::BufWriter::new(out));
    output::replace_with(name.as_ref(), page).map_err(|error| Failure::NotWritten(name.to_owned(), error))?;
    let s = if all.len() == 1 { "" } else { "s" };
    let not_read = all.len() - read;
    let refused = if not_read == 0 { String::new() } else { format!(", {not_read} of them not read") };
    worse(
        done,
        writeln!(to, "{}: the report of {} film{s}{refused}", input::named(name), all.len()).map_err(Failure::from),
    )
}

/// A page takes the place of no film, no slip and no hash.
fn not_over(request: &Request, slips: &[OsString], name: &OsStr) -> io::Result<()> {
    let refused = |words: &str| Err(io::Error::new(io::ErrorKind::AlreadyExists, words));
    if request.files.iter().any(|film| same_file(name, film)) {
        return refused("this is one of the films");
    }
    if slips.iter().any(|slip| same_file(name, slip) || same_file(name, &hash_name(slip))) {
        return refused("this is one of the slips");
    }
    if output::is_film(name.as_ref()) {
        return refused("this is a film, and no page is written over it; name another OUT");
    }
    Ok(())
}

/// Asks a film. Of several films each is compared with every slip, and keeps those that are its own.
fn told_of(request: &Request, file: &OsStr, number: usize, loose: &mut [Loose]) -> Result<Told, Failure> {
    let film = Film::read(file).map_err(Failure::Input)?.leaving_out(&request.leave_out)?;
    let movie = film.movie()?;
    let mut slips = Vec::new();
    let is_one = request.files.len() == 1;
    for slip in loose.iter_mut() {
        let checked = if is_one { Checked::of(&film, &movie, slip.name)? } else { compared(&film, &movie, slip.name)? };
        let is_own = checked.wrong.as_ref().is_none_or(|wrong| wrong.kind == Kind::OtherBytes);
        match &checked.wrong {
            Some(wrong) if !is_own => slip.reasons.push(wrong.reason.clone()),
            _ => slip.is_good = true,
        }
        if is_own || is_one {
            slips.push(checked);
        }
    }
    let asked = film::Asked { file, number, left_out: &request.leave_out, slips_given: !loose.is_empty() };
    film::accepted(&film, &movie, slips, &asked)
}

fn compared<'n>(film: &Film, movie: &Movie, name: &'n OsStr) -> Result<Checked<'n>, Failure> {
    Ok(Checked::compared(film, movie, name)?.0)
}

fn write_page(all: &[Told], loose: &[Loose], out: &mut dyn Write) -> io::Result<()> {
    let s = if all.len() == 1 { "" } else { "s" };
    let not_read = all.iter().filter(|told| !told.is_read).count();
    let refused = if not_read == 0 { String::new() } else { format!(", {not_read} not read") };
    writeln!(
        out,
        "<!DOCTYPE html>\n<html lang=\"en\" xmlns=\"http://www.w3.org/1999/xhtml\"><head><meta charset=\"utf-8\"/>\
         <meta name=\"viewport\" content=\"width=device-width, initial-scale=1\"/><link rel=\"icon\" href=\"data:,\"/>\
         <title>Film report</title><style>\n{STYLE}</style></head><body>{PATTERNS}"
    )?;
    writeln!(out, "<h1>Film report</h1><p class=\"soft\">{} film{s}{refused}, made {}</p>", all.len(), made::when())?;
    let rows = all.iter().map(|told| told.row.clone());
    out.write_all(table("cards", &SUMMARY, rows).as_bytes())?;
    out.write_all(KEY.as_bytes())?;
    out.write_all(of_no_film(loose).as_bytes())?;
    all.iter().try_for_each(|told| out.write_all(told.section.as_bytes()))?;
    writeln!(
        out,
        "<footer class=\"soft\">Made by chaldoref {} on {}. Answers come from a proved reader unless they are marked as not proved.\
         </footer></body></html>",
        escaped(env!("CARGO_PKG_VERSION")),
        made::when()
    )?;
    out.flush()
}

/// What the signs mean.
const KEY: &str =
    "<p class=\"soft key\"><span class=\"good\"><b>✓</b> good</span> <span class=\"look\"><b>!</b> look at it</span> \
                   <span class=\"bad\"><b>✗</b> not good</span></p>\n";

/// The slips that are good of no film.
fn of_no_film(loose: &[Loose]) -> String {
    let none: Vec<&Loose> = loose.iter().filter(|slip| !slip.is_good).collect();
    if none.is_empty() {
        return String::new();
    }
    let rows = none.iter().map(|slip| {
        let mut reasons = slip.reasons.clone();
        reasons.dedup();
        let words = match &reasons[..] {
            [one] => format!("not good: {one}"),
            _ => "good of none of these films".into(),
        };
        vec![html::html(html::name(&input::called(slip.name))), html::html(Mark::Bad.says(&words))]
    });
    format!("<h2>Slips that are not good</h2>\n{}", table("", &["slip", "verdict"], rows))
}
