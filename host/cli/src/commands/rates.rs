//! The series behind the picture of bit rates.
use super::{Answer, CLOCK};
use crate::failure::Failure;
use crate::rates::{Run, Runs};
use crate::table::{number, Column, Streamed};
use crate::time::clock;
use chaldoref::{Movie, Refusal, TrackId};

/// The columns for people.
const COLUMNS: [Column; 7] = [
    number("media time"),
    CLOCK,
    number("first sample"),
    number("last sample"),
    number("bytes"),
    number("duration"),
    number("bits a second"),
];

/// Those of comma-separated lines: the same without the clock.
const CSV: &str = "time,first,last,bytes,duration,rate";

/// The rate of the run from each sample, as they come.
pub fn rates(movie: &Movie, id: TrackId, csv: bool, to: Answer) -> Result<(), Failure> {
    let track = movie.track(id).ok_or(Refusal::NoTrack)?;
    let runs = Runs::of(movie, id)?;
    if csv {
        writeln!(to.out, "{CSV}")?;
        for Run { first, last, start, bytes, duration, rate } in runs {
            writeln!(to.out, "{start},{first},{last},{bytes},{duration},{rate}")?;
        }
        return Ok(());
    }
    let wide = clock(track.total, track.scale).len();
    let mut table = Streamed::new(to.out, COLUMNS, [10, wide, 7, 7, 10, 10, 10])?;
    for Run { first, last, start, bytes, duration, rate } in runs {
        table.row([&start.0, &clock(start, track.scale), &first, &last, &bytes, &duration, &rate])?;
    }
    Ok(())
}
