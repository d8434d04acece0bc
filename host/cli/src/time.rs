//! Times as people write them and as they are shown to them. Both ways are computed in whole numbers, and rounded down.
use crate::failure::Failure;
use chaldoref::{MediaTime, Movie, MovieTime, Refusal, TrackId};
use std::ops::Range;

const MILLISECONDS: u64 = 1000;
const SECONDS_A_MINUTE: u64 = 60;
const MINUTES_AN_HOUR: u64 = 60;

/// A time of a track's media or of the movie, as it was asked.
#[derive(Clone, Debug, PartialEq)]
pub enum Time {
    Units(u32),
    /// Whole seconds, and the decimal digits after the point.
    Seconds(u64, String),
    /// Where the track ends.
    End,
}

/// A stretch of a track, as it was asked: from one time up to another, or the whole track.
pub enum Span {
    Whole,
    Between(Time, Time),
}

impl Time {
    /// A time that is no plain number: 12.5s, 00:01:02.250, 1:02, start or end.
    pub fn parse(text: &str) -> Option<Time> {
        match text {
            "start" => return Some(Time::Seconds(0, String::new())),
            "end" => return Some(Time::End),
            _ => (),
        }
        match text.strip_suffix('s') {
            Some(seconds) => {
                let (whole, fraction) = decimal(seconds)?;
                Some(Time::Seconds(whole, fraction))
            }
            None => clock_time(text),
        }
    }

    /// Asks a question of this time, and hands the units back beside its answer.
    pub fn ask<T>(
        &self,
        movie: &Movie,
        id: TrackId,
        question: impl FnOnce(MediaTime) -> Result<T, Refusal>,
    ) -> Result<(MediaTime, T), Failure> {
        let time = self.of(movie, id)?;
        let asked = Asked { words: time.to_string(), is_plain: self.is_plain() };
        question(time).map(|answer| (time, answer)).map_err(|refusal| outside(movie, id, refusal, &asked))
    }

    /// The media time in the track's own scale. Refused 14 where no track has that ID, and 15 where it is over what a track can have.
    fn of(&self, movie: &Movie, id: TrackId) -> Result<MediaTime, Failure> {
        // The library refuses a plain number itself.
        if let Time::Units(units) = self {
            return Ok(MediaTime(*units));
        }
        let track = movie.track(id).ok_or(Refusal::NoTrack)?;
        self.units(track.scale, track.total.0).map(MediaTime).ok_or_else(|| too_late("track", track.scale))
    }

    /// The movie time in the movie's own scale. The movie's end is not asked for.
    pub fn of_movie(&self, movie: &Movie) -> Result<MovieTime, Failure> {
        let scale = movie.header().scale;
        self.units(scale, u32::MAX).map(MovieTime).ok_or_else(|| too_late("movie", scale))
    }

    /// The time in units of a scale, or nothing where these are 2^32 or more.
    fn units(&self, scale: u32, end: u32) -> Option<u32> {
        match self {
            Time::Units(units) => Some(*units),
            Time::Seconds(whole, fraction) => units(*whole, fraction, scale),
            Time::End => Some(end),
        }
    }

    pub fn is_plain(&self) -> bool {
        matches!(self, Time::Units(_))
    }
}

impl Span {
    /// Asks a question of this stretch, and hands the units back beside its answer.
    pub fn ask<T>(
        &self,
        movie: &Movie,
        id: TrackId,
        question: impl FnOnce(Range<MediaTime>) -> Result<T, Refusal>,
    ) -> Result<(Range<MediaTime>, T), Failure> {
        let time = self.of(movie, id)?;
        let back = if time.start >= time.end { ", which does not go forward," } else { "" };
        let asked = Asked { words: format!("{} to {}{back}", time.start, time.end), is_plain: self.is_plain() };
        question(time.clone()).map(|answer| (time, answer)).map_err(|refusal| outside(movie, id, refusal, &asked))
    }

    /// The media times in the track's own scale.
    fn of(&self, movie: &Movie, id: TrackId) -> Result<Range<MediaTime>, Failure> {
        match self {
            Span::Whole => Ok(MediaTime(0)..Time::End.of(movie, id)?),
            Span::Between(a, b) => Ok(a.of(movie, id)?..b.of(movie, id)?),
        }
    }

    /// Whether it was asked in units, so that no one has to be told which they are.
    fn is_plain(&self) -> bool {
        matches!(self, Span::Between(a, b) if a.is_plain() && b.is_plain())
    }
}

/// The refusal of a time that no track or movie can have.
fn too_late(of: &str, scale: u32) -> Failure {
    let words = format!("that time is over 4294967295 units of the {of}'s scale {scale}");
    Failure::Refused(Refusal::Outside, Some(words))
}

/// The units that were asked, and whether they were given as plain numbers.
struct Asked {
    words: String,
    is_plain: bool,
}

/// What is said of plain numbers, which may have been meant as seconds.
pub fn plain_in_words(scale: u32) -> String {
    format!("; plain numbers are units, {scale} to a second")
}

/// The refusal of a question; of a time that lies outside it says the units that were asked.
fn outside(movie: &Movie, id: TrackId, refusal: Refusal, asked: &Asked) -> Failure {
    match (refusal, movie.track(id)) {
        (Refusal::Outside, Some(track)) => {
            let (end, words) = (clock(track.total, track.scale), &asked.words);
            let plain = if asked.is_plain { plain_in_words(track.scale) } else { String::new() };
            let words = format!("media time {words} was asked, and the track ends at {} ({end}){plain}", track.total);
            Failure::Refused(refusal, Some(words))
        }
        _ => refusal.into(),
    }
}

/// Hours, minutes and seconds with colons between them, or minutes and seconds.
fn clock_time(text: &str) -> Option<Time> {
    let (before, seconds) = text.rsplit_once(':')?;
    let (hours, minutes) = match before.split_once(':') {
        Some((hours, minutes)) => (whole(hours)?, whole(minutes).filter(|minutes| *minutes < MINUTES_AN_HOUR)?),
        None => (0, whole(before)?),
    };
    let (seconds, fraction) = decimal(seconds).filter(|(seconds, _)| *seconds < SECONDS_A_MINUTE)?;
    let minutes = hours.saturating_mul(MINUTES_AN_HOUR).saturating_add(minutes);
    Some(Time::Seconds(minutes.saturating_mul(SECONDS_A_MINUTE).saturating_add(seconds), fraction))
}

/// A number, and the digits after its point if it has one.
fn decimal(text: &str) -> Option<(u64, String)> {
    match text.split_once('.') {
        Some((before, after)) => is_digits(after).then_some((whole(before)?, after.into())),
        None => Some((whole(text)?, String::new())),
    }
}

/// A number, however great: no track lasts that long, so that the greatest of 64 bits can stand for all above it.
fn whole(text: &str) -> Option<u64> {
    is_digits(text).then(|| text.parse().unwrap_or(u64::MAX))
}

fn is_digits(text: &str) -> bool {
    !text.is_empty() && text.bytes().all(|c| c.is_ascii_digit())
}

/// Seconds in units of a scale, or nothing where these are 2^32 or more.
fn units(whole: u64, fraction: &str, scale: u32) -> Option<u32> {
    // From the last digit on, what is left over at one digit is less than a unit at the one before: no length is too long.
    let digits = fraction.bytes().rev().map(|c| u64::from(c - b'0'));
    let part = digits.fold(0, |after, digit| (digit * u64::from(scale) + after) / 10);
    let all = whole.checked_mul(scale.into())?.checked_add(part)?;
    u32::try_from(all).ok()
}

/// A time as hours, minutes, seconds and milliseconds. No accepted movie or slip has scale 0.
pub fn clock(time: MediaTime, scale: u32) -> String {
    clock_of(time.0.into(), scale.into())
}

/// The same of a movie time.
pub fn movie_clock(time: MovieTime, scale: u32) -> String {
    clock_of(time.0.into(), scale.into())
}

/// The same of numbers of 64 bits, which a slip of form 2 may have.
pub fn clock_of(time: u64, scale: u64) -> String {
    let all = u128::from(time) * u128::from(MILLISECONDS) / u128::from(scale);
    let [thousand, minute, hour] = [MILLISECONDS, SECONDS_A_MINUTE, MINUTES_AN_HOUR].map(u128::from);
    let (seconds, milliseconds) = (all / thousand, all % thousand);
    let (minutes, seconds) = (seconds / minute, seconds % minute);
    let (hours, minutes) = (minutes / hour, minutes % hour);
    format!("{hours:02}:{minutes:02}:{seconds:02}.{milliseconds:03}")
}

/// The same as seconds with one digit after the point, where it is less than a minute.
pub fn brief(time: u64, scale: u64) -> String {
    if u128::from(time) >= u128::from(scale) * u128::from(SECONDS_A_MINUTE) {
        return clock_of(time, scale);
    }
    let tenths = u128::from(time) * 10 / u128::from(scale);
    format!("{}.{} s", tenths / 10, tenths % 10)
}

/// A stretch of media time and how long it lasts, in units and as people have it.
pub fn stretch_in_words(time: &Range<MediaTime>, scale: u32) -> String {
    let (a, b) = (time.start, time.end);
    let film_time = MediaTime(b.0 - a.0);
    let [begin, end, length] = [a, b, film_time].map(|time| clock(time, scale));
    format!("media time {a} to {b} ({begin} to {end}), film time {film_time} ({length})")
}

#[cfg(test)]
mod tests {
    use super::*;

    #[test]
    fn times() {
        let seconds = |whole, fraction: &str| Some(Time::Seconds(whole, fraction.into()));
        assert_eq!(Time::parse("end"), Some(Time::End));
        assert_eq!(Time::parse("12.5s"), seconds(12, "5"));
        assert_eq!(Time::parse("12s"), seconds(12, ""));
        assert_eq!(Time::parse("0.000s"), seconds(0, "000"));
        assert_eq!(Time::parse("00:01:02.250"), seconds(62, "250"));
        assert_eq!(Time::parse("1:59:59"), seconds(7199, ""));
        assert_eq!(Time::parse("100:00:00"), seconds(360_000, ""));
        assert_eq!(Time::parse("4294967295:59:59.9"), seconds(15_461_882_265_599, "9"));
        assert_eq!([Time::parse("1:00"), Time::parse("100:59.5")], [seconds(60, ""), seconds(6059, "5")]);
        assert_eq!(Time::parse("start"), seconds(0, ""));
        assert_eq!(Time::parse("4294967296s"), seconds(4_294_967_296, ""));
        for text in ["99999999999999999999s", "99999999999999999999:00", "9999999999999999999:00:00"] {
            assert_eq!(Time::parse(text), seconds(u64::MAX, ""), "{text}");
        }
        let seconds = "s 5.s .5s 1.2.3s -1s +1s 1e3s 0x10s 1S 12.5 １s";
        let clocks = "1: :1 1:60 1:60:00 1:00:60 1:00:00:00 :: 1::2 1:+1:0 1:0:0. 1:0:0s 1:0.5:0";
        for text in seconds.split(' ').chain(clocks.split(' ')).chain(["", "1 s", "End", "end ", "Start", "starts"]) {
            assert_eq!(Time::parse(text), None, "{text}");
        }
    }

    #[test]
    fn units_are_rounded_down() {
        for (whole, fraction, scale, expected) in [
            (12, "5", 600, 7500),
            (0, "04", 600, 24),
            (0, "0416", 600, 24),
            (0, "0416666666666666666666666666666666666", 600, 24),
            (0, "041666666666666666666666666666666666667", 600, 25),
            (0, "999", 1, 0),
            (1, "", 30_000, 30_000),
            (0, "033366", 30_000, 1000),
            (0, "0333666666666666666666666666666666666666666667", 30_000, 1001),
            (0, "9999999999999999999999", u32::MAX, u32::MAX - 1),
            (1, "0", u32::MAX, u32::MAX),
            (u32::MAX.into(), "9", 1, u32::MAX),
        ] {
            assert_eq!(units(whole, fraction, scale), Some(expected), "{whole}.{fraction} in {scale}");
        }
        assert_eq!(units(1, "0000000003", u32::MAX), None);
        assert_eq!(units(7_158_278, "9", 600), None);
        assert_eq!(units(15_461_882_265_599, "", u32::MAX), None);
    }

    /// Each number of milliseconds, in some scales, beside the quotient itself.
    #[test]
    fn digits_as_one_quotient() {
        for scale in [1, 3, 24, 600, 1000, 1001, 30_000, 44_100, 90_000, u32::MAX] {
            for ms in 0..1000u64 {
                let expected = u32::try_from(ms * u64::from(scale) / 1000).unwrap();
                assert_eq!(units(0, &format!("{ms:03}"), scale), Some(expected), "{ms} in {scale}");
            }
        }
    }

    #[test]
    fn clocks() {
        for (time, scale, expected) in [
            (0, 600, "00:00:00.000"),
            (49, 600, "00:00:00.081"),
            (599, 600, "00:00:00.998"),
            (37_350, 600, "00:01:02.250"),
            (2_159_999, 600, "00:59:59.998"),
            (2_160_000, 600, "01:00:00.000"),
            (1, u32::MAX, "00:00:00.000"),
            (u32::MAX, u32::MAX, "00:00:01.000"),
            (u32::MAX, 1, "1193046:28:15.000"),
        ] {
            assert_eq!(clock(MediaTime(time), scale), expected);
        }
    }

    #[test]
    fn brief_times() {
        for (time, scale, expected) in [
            (1_048_576, 48_000, "21.8 s"),
            (0, 1, "0.0 s"),
            (59_999, 1000, "59.9 s"),
            (60_000, 1000, "00:01:00.000"),
            (1_048_576, 25, "11:39:03.040"),
        ] {
            assert_eq!(brief(time, scale), expected);
        }
    }

    /// What is shown is taken again as that time, or less by under a millisecond and a unit.
    #[test]
    fn what_is_shown_is_taken() {
        for scale in [1, 600, 1000, 30_000, 90_000] {
            for time in (0..200_000).step_by(77) {
                let Some(Time::Seconds(whole, fraction)) = Time::parse(&clock(MediaTime(time), scale)) else {
                    panic!()
                };
                let again = units(whole, &fraction, scale).unwrap();
                assert!(again <= time && time - again <= scale.div_ceil(1000), "{time} in {scale}");
            }
        }
    }
}
