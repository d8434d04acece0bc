//! Stepping through a track.
use crate::answers::Sample;
use crate::ffi::{self, broken, promised, SAMPLE_NUMBERS, STEPPER_NUMBERS};
use std::fmt;
use std::iter::FusedIterator;

/// As many samples are had from the library at once.
const FETCHED: usize = 64;

/// The samples of a track, in order, from one of them on. [`Movie::samples`](crate::Movie::samples),
/// [`Movie::samples_from`](crate::Movie::samples_from) and those of an [`Opened`](crate::Opened) track make it.
#[derive(Clone)]
pub struct Samples<'a> {
    lent: &'a [u8],
    /// Where the library stands in each table, past what was fetched.
    stepper: [u64; STEPPER_NUMBERS],
    fetched: [[i64; SAMPLE_NUMBERS]; FETCHED],
    /// Which of the fetched ones is next, and how many there are.
    next: usize,
    count: usize,
    /// How many are still to come, the fetched ones among them.
    left: u32,
}

impl<'a> Samples<'a> {
    /// So many samples from a position on.
    pub(crate) fn new(lent: &'a [u8], stepper: [u64; STEPPER_NUMBERS], left: u32) -> Samples<'a> {
        Samples { lent, stepper, fetched: [[0; SAMPLE_NUMBERS]; FETCHED], next: 0, count: 0, left }
    }

    /// Those of a track that has none.
    pub(crate) fn none() -> Samples<'a> {
        Samples::new(&[], [0; STEPPER_NUMBERS], 0)
    }

    /// Has the next ones from the library, of which there is at least one.
    fn fetch(&mut self) {
        let [count] = ffi::steps(self.lent, &mut self.stepper, &mut self.fetched).unwrap_or_else(|_| broken());
        self.next = 0;
        self.count = promised(count);
    }
}

impl Iterator for Samples<'_> {
    type Item = Sample;

    fn next(&mut self) -> Option<Sample> {
        self.left = self.left.checked_sub(1)?;
        if self.next == self.count {
            self.fetch();
        }
        let sample = self.fetched[..self.count].get(self.next).unwrap_or_else(|| broken());
        self.next += 1;
        Some(Sample::of(*sample))
    }

    fn size_hint(&self) -> (usize, Option<usize>) {
        let left = self.left as usize;
        (left, Some(left))
    }
}

impl ExactSizeIterator for Samples<'_> {}

impl FusedIterator for Samples<'_> {}

impl fmt::Debug for Samples<'_> {
    /// How many are still to come; the numbers of a position would be no help.
    fn fmt(&self, f: &mut fmt::Formatter<'_>) -> fmt::Result {
        f.debug_struct("Samples").field("left", &self.left).finish()
    }
}
