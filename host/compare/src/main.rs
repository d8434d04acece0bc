//! Compares the proved library with the reference: films and slips made from a seed, films of 2 GiB, and films given as files.
//! Nothing but differences, the counts and a last line go to standard output; progress goes to standard error.
#![deny(unsafe_code)]
mod big;
mod case;
mod choose;
mod compacted;
mod counts;
mod faults;
mod films;
mod indexed;
mod lent;
mod library;
mod mapped;
mod opened;
mod options;
mod question;
mod returns;
mod run;
mod steps;

use std::process::ExitCode;

fn main() -> ExitCode {
    let options = match options::options(std::env::args().skip(1)) {
        Ok(options) => options,
        Err(fault) => {
            eprintln!("{fault}\n{}", options::USAGE);
            return ExitCode::from(2);
        }
    };
    let mut run = run::Run::new(options.seed);
    let compared = run.all(&options);
    let counts = run.counts();
    println!("{}{}\n{}\n{}", counts.table(), counts.strict_line(), counts.verdict_lines(), counts.slip_lines());
    if let Err(words) = compared {
        println!("{words}");
        return ExitCode::FAILURE;
    }
    // A few films, or files alone, need not meet everything.
    let complaints = if options.films.is_some() && options.film.is_none() { counts.complaints() } else { Vec::new() };
    for complaint in &complaints {
        println!("NOT COMPARED: {complaint}");
    }
    if !complaints.is_empty() {
        return ExitCode::FAILURE;
    }
    println!("compared {} films and {} questions: no difference", counts.films(), counts.questions());
    ExitCode::SUCCESS
}
