//! The command line of Chaldoref: each command puts one question of document 01 to a film, or writes or reads slips.
#![deny(unsafe_code)]

mod args;
mod atoms;
mod checked;
#[allow(unsafe_code)]
mod closed;
mod commands;
mod completion;
mod explain;
mod failure;
mod fault;
mod filed;
mod film;
mod films;
mod help;
mod hints;
mod html;
mod input;
mod json;
mod output;
mod progress;
mod quay;
mod rates;
mod read_json;
mod retyped;
mod sha256;
mod suggest;
mod svg;
mod syntax;
mod table;
mod time;
mod unproved;
mod warnings;
#[allow(unsafe_code)]
mod zeros;

use args::{Ask, Parsed, Request};
use failure::{worse, Failure, SUCCESS};
use json::Subject;
use std::ffi::{OsStr, OsString};
use std::io::{self, BufWriter, Write};
use std::process::ExitCode;

/// As many bytes are written at once.
const WRITTEN: usize = 1 << 16;

fn main() -> ExitCode {
    let words: Vec<OsString> = std::env::args_os().skip(1).collect();
    let json = args::has_json(&words);
    let status = match args::parse(words) {
        Ok(Parsed::Text(text)) => end("", print(|out| Ok(out.write_all(text.as_bytes())?))),
        Ok(Parsed::Run(request)) => match &request.ask {
            Ask::FilmReturn(options) => end("", print(|out| commands::film_return(&request, options, out))),
            &Ask::CheckQuay { all } if request.files.len() > 1 && !request.json => {
                end("", print(|out| commands::check_quay_table(&request, all, out)))
            }
            Ask::Report { ref slips, ref out } => end("", print(|to| commands::report(&request, slips, out, to))),
            _ => each(&request),
        },
        Err(failure) => end("", documented(Err(failure), Subject::default(), json)),
    };
    ExitCode::from(status)
}

/// Answers a request of each file; the greatest exit status counts.
fn each(request: &Request) -> u8 {
    request.files.iter().map(|file| end(&input::called(file), answer(request, file))).max().unwrap_or(SUCCESS)
}

/// Answers a request of one file.
fn answer(request: &Request, file: &OsStr) -> Result<(), Failure> {
    let of = Subject { file: Some(file), left_out: &request.leave_out, ..Subject::default() };
    documented(print(|out| commands::run(request, file, out)), of, request.json)
}

/// With --json a failure is a document on standard output as well, so that there is always one.
fn documented(done: Result<(), Failure>, of: Subject, json: bool) -> Result<(), Failure> {
    if let (Err(failure), true) = (&done, json) {
        print(|out| Ok(commands::failed(failure, of, out)?))?;
    }
    done
}

/// Runs something that writes to standard output, and sees to it that all of it is written, also before a failure.
fn print(write: impl FnOnce(&mut dyn Write) -> Result<(), Failure>) -> Result<(), Failure> {
    let mut out = BufWriter::with_capacity(WRITTEN, output::standard()?);
    let done = write(&mut out);
    worse(done, out.flush().map_err(Failure::from))
}

/// The exit status; what went wrong with the file of that name goes to standard error.
fn end(file: &str, done: Result<(), Failure>) -> u8 {
    let Err(failure) = done else { return SUCCESS };
    // Where standard error cannot be written, the status alone tells.
    let _ = io::stderr().write_all(failure.message(file).as_bytes());
    failure.status()
}
