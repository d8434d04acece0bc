//! Document 02, "The quarter's film return": totals over many movies, and the text that the program prints for the files it is told.
use crate::movie::refusals::read;
use crate::movie::tables::{Movie, Track};

pub const TOO_MANY_SCALES: u32 = 20;
pub const TOO_GREAT: u32 = 21;

/// "Up to 32 scales are held"
const MOST_SCALES: usize = 32;

/// The most bytes of a file, and of all names, that the program reads.
const MOST_BYTES: usize = 65_536;

/// The numbers with which a file is refused, in the order of their lines: "`refused 1` to `refused 13` (11 stays 0 by Ask 7's default), `refused 19`"
pub const NUMBERS: [u32; 14] = [1, 2, 3, 4, 5, 6, 7, 8, 9, 10, 11, 12, 13, 19];

/// "totals over many movies: files accepted, files refused under each number, tracks, samples, film bytes (all sizes) and, for each media time scale met,
/// its tracks' totals added". Each is below 2^64.
#[derive(Clone, Debug, Default, PartialEq)]
pub struct FilmReturn {
    pub accepted: u128,
    /// One for each of the numbers.
    pub refused: [u128; NUMBERS.len()],
    pub tracks: u128,
    pub samples: u128,
    pub bytes: u128,
    /// Each scale with its total, "in order of first meeting".
    pub scales: Vec<(u64, u128)>,
}

impl FilmReturn {
    fn add_track(&mut self, track: &Track) {
        self.tracks += 1;
        self.samples += u128::try_from(track.samples.len()).unwrap();
        self.bytes += track.samples.iter().map(|sample| u128::from(sample.size)).sum::<u128>();
        self.add_scale(track.tables.scale, u128::from(track.total));
    }

    fn add_scale(&mut self, scale: u64, total: u128) {
        match self.scales.iter_mut().find(|(met, _)| *met == scale) {
            Some((_, sum)) => *sum += total,
            None => self.scales.push((scale, total)),
        }
    }

    fn add_refused(&mut self, number: u32) {
        let place = NUMBERS.iter().position(|refusal| *refusal == number).unwrap();
        self.refused[place] += 1;
    }

    /// The return with the whole of a file in it, as it is read, which may be too much.
    fn with(&self, file: &Result<Movie, u32>) -> FilmReturn {
        let mut all = self.clone();
        match file {
            Ok(movie) => {
                all.accepted += 1;
                movie.tracks.iter().for_each(|track| all.add_track(track));
            }
            Err(number) => all.add_refused(*number),
        }
        all
    }

    /// Every total.
    fn totals(&self) -> Vec<u128> {
        let mut totals = vec![self.accepted, self.tracks, self.samples, self.bytes];
        totals.extend(self.refused);
        totals.extend(self.scales.iter().map(|(_, total)| total));
        totals
    }

    /// Files a movie. "20 for a thirty-third scale, then 21 for a total that would reach 2^64; either leaves the return without any of that file": 0 for
    /// a file that is counted, be it accepted or refused.
    pub fn file(&mut self, file: &[u8]) -> u32 {
        self.file_read(&read(file))
    }

    /// The same of a file that is read already, be it by its moov alone.
    pub fn file_read(&mut self, file: &Result<Movie, u32>) -> u32 {
        self.become_within(self.with(file))
    }

    /// "the return of both, r's scales first, then those of s that r has not, in their order", which may be too much
    fn with_return(&self, other: &FilmReturn) -> FilmReturn {
        let mut all = self.clone();
        all.accepted += other.accepted;
        all.tracks += other.tracks;
        all.samples += other.samples;
        all.bytes += other.bytes;
        for (films, more) in all.refused.iter_mut().zip(other.refused) {
            *films += more;
        }
        other.scales.iter().for_each(|(scale, total)| all.add_scale(*scale, *total));
        all
    }

    /// Joins another return to this one. "20 where that makes a thirty-third scale, then 21 where a total would reach 2^64; either leaves r as it was"
    pub fn join(&mut self, other: &FilmReturn) -> u32 {
        self.become_within(self.with_return(other))
    }

    /// Takes the place of this return, where it is within the limits.
    fn become_within(&mut self, all: FilmReturn) -> u32 {
        if all.scales.len() > MOST_SCALES {
            return TOO_MANY_SCALES;
        }
        if all.totals().iter().any(|total| *total >= 1 << 64) {
            return TOO_GREAT;
        }
        *self = all;
        0
    }

    /// "a line each, `accepted`, `refused 1` to `refused 13` ..., `refused 19`, `tracks`, `samples`, `bytes` and, for each scale, `scale`, a blank and the
    /// scale, each followed by a blank and its decimal total"
    pub fn lines(&self) -> String {
        let mut text = format!("accepted {}\n", self.accepted);
        for (number, total) in NUMBERS.iter().zip(self.refused) {
            text += &format!("refused {number} {total}\n");
        }
        text += &format!("tracks {}\nsamples {}\nbytes {}\n", self.tracks, self.samples, self.bytes);
        for (scale, total) in &self.scales {
            text += &format!("scale {scale} {total}\n");
        }
        text
    }
}

/// "file names, one to a line, the last line feed optional": what follows the last line feed is a name if it is not empty
fn names(input: &[u8]) -> Vec<&[u8]> {
    let mut names: Vec<&[u8]> = input.split(|byte| *byte == b'\n').collect();
    if names.last().is_some_and(|last| last.is_empty()) {
        names.pop();
    }
    names
}

/// The bytes of a file, but for one "over 65,536 bytes, unreadable (as an empty name or one with a zero byte is)"
fn readable(name: &[u8], contents: impl Fn(&[u8]) -> Option<Vec<u8>>) -> Option<Vec<u8>> {
    if name.is_empty() || name.contains(&0) {
        return None;
    }
    contents(name).filter(|file| file.len() <= MOST_BYTES)
}

/// What the program prints for the names on its standard input; `contents` are the bytes of the file of a name, nothing where it is unreadable.
pub fn printed(input: &[u8], contents: impl Fn(&[u8]) -> Option<Vec<u8>>) -> Vec<u8> {
    // "up to 65,536 bytes in all (more: only `too long`)"
    if input.len() > MOST_BYTES {
        return b"too long\n".to_vec();
    }
    let mut all = FilmReturn::default();
    let mut text = Vec::new();
    for name in names(input) {
        let is_counted = readable(name, &contents).is_some_and(|file| all.file(&file) == 0);
        // "is not counted: for each, in order, it prints `skipped`, a blank and the name"
        if !is_counted {
            text.extend([b"skipped ", name, b"\n"].concat());
        }
    }
    text.extend(all.lines().into_bytes());
    text
}
