//! Joins returns that `film-return --json` wrote.
use super::{print_totals, refused_fields, scale_fields};
use crate::args::Request;
use crate::failure::{worse, Failure};
use crate::input;
use crate::json::{document, Subject};
use crate::read_json::Json;
use chaldoref::{FilmReturn, Refusal, MAX_SCALES};
use std::ffi::OsStr;
use std::io::{self, Write};

/// The version of the documents that are joined.
const FORMAT: u64 = 1;

/// The keys of the lists of names.
const SKIPPED: &str = "skipped";
const FRAGMENTED: &str = "fragmented";
const NOT_ACCEPTED: &str = "not_accepted";
const HEX: &str = "_hex";
const LISTS: [&str; 5] = [SKIPPED, "skipped_hex", FRAGMENTED, "fragmented_hex", NOT_ACCEPTED];

/// A return, and the films that are named beside it, in the order of `LISTS`.
#[derive(Default)]
struct Part {
    totals: FilmReturn,
    lists: [Vec<Json>; LISTS.len()],
}

/// Prints the return of all parts, in the order in which they are named. Where one is none, nothing is joined.
pub fn join(request: &Request, all: bool, out: &mut dyn Write) -> Result<(), Failure> {
    let mut whole = Part::default();
    for name in &request.files {
        add(&mut whole, name).map_err(|error| named(request, name, error, out))?;
    }
    let printed = if request.json { whole.document(out) } else { whole.print(all, out) };
    worse(printed.map_err(Failure::from), whole.outcome())
}

/// Tells which file is at fault, in a document too where documents are asked for.
fn named(request: &Request, name: &OsStr, error: io::Error, out: &mut dyn Write) -> Failure {
    let failure = Failure::Input(error);
    if request.json {
        let of = Subject { file: Some(name), ..Subject::default() };
        if let Err(error) = super::super::failed(&failure, of, out) {
            return error.into();
        }
    }
    super::super::told(name, failure)
}

fn add(whole: &mut Part, name: &OsStr) -> io::Result<()> {
    let wrong = |words: String| io::Error::new(io::ErrorKind::InvalidData, words);
    let bytes = input::read(name)?;
    let no_return =
        |why: &str| wrong(format!("this is no return that film-return --json wrote: {why}; nothing is joined"));
    let text = std::str::from_utf8(&bytes).map_err(|_| no_return("it is no text"))?;
    let document = Json::read(text).ok_or_else(|| no_return("it is not one JSON document"))?;
    let part = Part::of(&document).map_err(|why| no_return(&why))?;
    whole.totals.join(&part.totals).map_err(|refusal| match refusal {
        Refusal::TooManyScales => wrong(format!(
            "refused {}: with it there are more than {MAX_SCALES} scales; nothing is joined",
            refusal.number()
        )),
        _ => wrong(format!("refused {}: {refusal}; nothing is joined", refusal.number())),
    })?;
    for (all, more) in whole.lists.iter_mut().zip(part.lists) {
        all.extend(more);
    }
    Ok(())
}

impl Part {
    /// The return in a document, or why it has none.
    fn of(document: &Json) -> Result<Part, String> {
        let list = |key: &str| document.get(key).and_then(Json::list).ok_or_else(|| format!("'{key}' is no list"));
        let format = number(document, "format")?;
        if format != FORMAT {
            return Err(format!("its format is {format}, and {FORMAT} is read"));
        }
        let mut numbers = vec![number(document, "accepted")?];
        let refused = list("refused")?;
        let wanted: Vec<u64> = FilmReturn::new().refused().map(|(refusal, _)| refusal.number().into()).collect();
        if refused.len() != wanted.len() {
            return Err(format!("'refused' has {} places, and a return has {}", refused.len(), wanted.len()));
        }
        for (one, wanted) in refused.iter().zip(wanted) {
            if number(one, "refusal")? != wanted {
                return Err(format!("'refused' has not refusal {wanted} in its place"));
            }
            numbers.push(number(one, "films")?);
        }
        for key in ["tracks", "samples", "bytes"] {
            numbers.push(number(document, key)?);
        }
        numbers.extend(scale_numbers(list("scales")?)?);
        let totals = FilmReturn::from_numbers(&numbers).ok_or("a scale is 2^32 or more")?;
        Ok(Part { totals, lists: lists(document, list)? })
    }

    fn list(&self, key: &str) -> &[Json] {
        LISTS.iter().position(|own| *own == key).map_or(&[], |place| &self.lists[place])
    }

    fn document(&self, out: &mut dyn Write) -> io::Result<()> {
        let refused: Vec<(Refusal, u64)> = self.totals.refused().collect();
        let scales: Vec<(u32, u64)> = self.totals.scales().collect();
        document(out, Subject::default(), |o| {
            for (key, items) in LISTS.iter().zip(&self.lists) {
                // Bytes of names are told only where some are no text.
                let names = key.strip_suffix(HEX).map(|key| self.list(key));
                if names.is_none_or(|names| names.iter().map(hex_of).ne(items.iter().cloned())) {
                    o.raw(key, &Json::List(items.clone()).to_string())?;
                }
            }
            o.put("accepted", self.totals.accepted())?.list("refused", &refused, refused_fields)?;
            o.put("tracks", self.totals.tracks())?.put("samples", self.totals.samples())?;
            o.put("bytes", self.totals.bytes())?.list("scales", &scales, scale_fields).map(drop)
        })
    }

    fn print(&self, all: bool, out: &mut dyn Write) -> io::Result<()> {
        for name in self.list(SKIPPED) {
            writeln!(out, "skipped {}", input::shown(OsStr::new(name.text().unwrap_or_default())))?;
        }
        print_totals(&self.totals, all, out)
    }

    /// The exit status that one return of all films has.
    fn outcome(&self) -> Result<(), Failure> {
        let failed = self.list(NOT_ACCEPTED);
        if failed.is_empty() && self.list(FRAGMENTED).is_empty() {
            return Ok(());
        }
        Err(Failure::Skipped { unread: failed.iter().any(|film| film.get("error").is_some()) })
    }
}

fn number(of: &Json, key: &str) -> Result<u64, String> {
    of.get(key).and_then(Json::number).ok_or_else(|| format!("'{key}' is no number from 0 to 2^64 - 1"))
}

/// How many scales there are, the scales, and their totals, as a return has them.
fn scale_numbers(scales: &[Json]) -> Result<Vec<u64>, String> {
    if scales.len() > MAX_SCALES {
        return Err(format!("it has {} scales, and a return has at most {MAX_SCALES}", scales.len()));
    }
    let of_each = |key: &str| scales.iter().map(|one| number(one, key)).collect::<Result<Vec<u64>, String>>();
    let (mut all, mut units) = (of_each("scale")?, of_each("total")?);
    if let Some(twice) = (1..all.len()).find(|i| all[..*i].contains(&all[*i])) {
        return Err(format!("scale {} is there twice", all[twice]));
    }
    all.resize(MAX_SCALES, 0);
    units.resize(MAX_SCALES, 0);
    Ok([scales.len() as u64].into_iter().chain(all).chain(units).collect())
}

/// The lists of names. Those of their bytes are there only where a name is no text.
fn lists<'d>(
    document: &'d Json,
    list: impl Fn(&str) -> Result<&'d [Json], String>,
) -> Result<[Vec<Json>; LISTS.len()], String> {
    let mut all: [Vec<Json>; LISTS.len()] = Default::default();
    for (place, key) in LISTS.iter().enumerate() {
        all[place] = match key.strip_suffix(HEX) {
            Some(names) if document.get(key).is_none() => list(names)?.iter().map(hex_of).collect(),
            _ => list(key)?.to_vec(),
        };
    }
    Ok(all)
}

/// The bytes of a name.
fn hex_of(name: &Json) -> Json {
    Json::Text(name.text().unwrap_or_default().bytes().map(|byte| format!("{byte:02x}")).collect())
}
