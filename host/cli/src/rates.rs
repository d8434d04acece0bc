//! The bit rate over one second from each sample of a track: the shortest run of samples from there whose durations total at least the time scale.
//! Runs that never get there are left out; where none gets there the whole track is the only run.
use chaldoref::{MediaTime, Movie, Refusal, Samples, TrackId};

/// A run of samples, and its rate.
#[derive(Clone, Debug, PartialEq)]
pub struct Run {
    /// The numbers of its first and last sample.
    pub first: u32,
    pub last: u32,
    /// The decode time of its first sample.
    pub start: MediaTime,
    pub bytes: u64,
    pub duration: u64,
    /// Bits a second, rounded up.
    pub rate: u64,
}

/// The runs of a track, in order. Two walks over its samples go side by side, so that no sample is kept.
pub struct Runs<'a> {
    /// From the first sample of the next run, and past its last.
    firsts: Samples<'a>,
    rest: Samples<'a>,
    scale: u64,
    first: u32,
    last: u32,
    start: u64,
    bytes: u64,
    duration: u64,
    is_any_given: bool,
}

impl<'a> Runs<'a> {
    pub fn of(movie: &Movie<'a>, id: TrackId) -> Result<Runs<'a>, Refusal> {
        let scale = movie.track(id).ok_or(Refusal::NoTrack)?.scale.into();
        let (firsts, rest) = (movie.samples(id)?, movie.samples(id)?);
        Ok(Runs { firsts, rest, scale, first: 1, last: 0, start: 0, bytes: 0, duration: 0, is_any_given: false })
    }

    fn run(&mut self) -> Run {
        self.is_any_given = true;
        let bits = 8 * u128::from(self.bytes) * u128::from(self.scale);
        let rate = u64::try_from(bits.div_ceil(u128::from(self.duration))).unwrap_or(u64::MAX);
        // A decode time is below the track's total.
        let start = MediaTime(u32::try_from(self.start).unwrap_or(u32::MAX));
        Run { first: self.first, last: self.last, start, bytes: self.bytes, duration: self.duration, rate }
    }
}

impl Iterator for Runs<'_> {
    type Item = Run;

    fn next(&mut self) -> Option<Run> {
        while self.duration < self.scale {
            let Some(sample) = self.rest.next() else {
                let is_whole = !self.is_any_given && self.duration > 0;
                return is_whole.then(|| self.run());
            };
            self.last += 1;
            self.bytes += u64::from(sample.size);
            self.duration += u64::from(sample.duration);
        }
        let run = self.run();
        let sample = self.firsts.next()?;
        self.first += 1;
        self.start += u64::from(sample.duration);
        self.bytes -= u64::from(sample.size);
        self.duration -= u64::from(sample.duration);
        Some(run)
    }
}
