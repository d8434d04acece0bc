//! Document 02, "Stepping through a hose film", in the plainest way: a position is a track's ID and the number of its next sample.
use super::lent::Film;
use super::questions::answered;
use super::refusals::read;
use super::tables::{Movie, Sample};

/// "a stepper that holds its position in each table by value"
#[derive(Clone, Copy, Debug, Default, PartialEq)]
pub struct Position {
    pub id: u32,
    pub next: u32,
}

/// "hands back the next sample with the new position"; "A step after sample N answers done"
#[derive(Clone, Copy, Debug, PartialEq)]
pub enum Step {
    Next(Sample, Position),
    Done,
}

impl Movie {
    /// "Started at any sample"; "14, then 15 for a start outside 1 to N"
    pub fn start_at(&self, id: u32, n: u32) -> Result<Position, u32> {
        self.sample(id, n)?;
        Ok(Position { id, next: n })
    }

    /// "its answers equal the sample question's from there to the end, and each step itself moves the position on". From a position of another film or
    /// track the answer is that track's sample of that number here, and done where there is none.
    pub fn step(&self, from: Position) -> Step {
        match self.sample(from.id, from.next) {
            Ok(sample) => Step::Next(sample, Position { next: from.next + 1, ..from }),
            Err(_) => Step::Done,
        }
    }
}

/// "Refusals: the file's, 14, then 15"
pub fn start_at(film: &(impl Film + ?Sized), id: u32, n: u32) -> (u32, Position) {
    answered(read(film).and_then(|movie| movie.start_at(id, n)))
}

/// A film that is refused has no sample, and every position is of another film.
pub fn step(film: &(impl Film + ?Sized), from: Position) -> Step {
    read(film).map_or(Step::Done, |movie| movie.step(from))
}
