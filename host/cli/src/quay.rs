//! Where a film breaks the rules of the quay film profile. The places are found by stepping through the tracks and are not proved; the verdict is the library's,
//! and what is found here is kept only where it begins with that verdict.
use crate::atoms;
use crate::time::clock;
use chaldoref::{Feature, FourCC, MediaTime, Movie, QuayFault, QuayRule, Sample, Track, TrackId};

/// As many samples there are at most from one sync sample up to the next.
const MOST_OF_A_GROUP: u32 = 250;

/// 30 frames a second, as vfps counts them.
const MOST_FRAMES: u32 = 30 * 65536;

/// The code of a video track.
const VIDEO: FourCC = FourCC::from_bytes(*b"vide");

/// A rule that is broken, by which track, and where.
pub struct Break {
    pub rule: QuayRule,
    pub track: Option<TrackId>,
    pub place: Place,
}

/// Where a rule is broken: at a sample, which has a time, or by what a track has.
pub struct Place {
    pub sample: Option<(u32, MediaTime, u32)>,
    pub words: String,
}

impl Place {
    fn of(words: String) -> Place {
        Place { sample: None, words }
    }

    /// For people, after the track that breaks the rule.
    pub fn in_words(&self) -> String {
        match &self.sample {
            None => format!(": {}", self.words),
            Some((n, time, scale)) if self.words.is_empty() => format!(" at sample {n} ({})", clock(*time, *scale)),
            Some((n, time, scale)) => format!(" at sample {n} ({}): {}", clock(*time, *scale), self.words),
        }
    }
}

/// A rule in words for people.
pub fn in_words(rule: QuayRule) -> &'static str {
    match rule {
        QuayRule::Tracks => "one or two video tracks and no others",
        QuayRule::Edits => "at most one edit a track",
        QuayRule::Descriptions => "one description a track",
        QuayRule::CompositionOffsets => "no ctts",
        QuayRule::SyncSamples => "sample 1 is a sync sample, and each begins a group of at most 250",
        QuayRule::Sizes => "no sample of size 0",
        QuayRule::Durations => "no sample of duration 0",
        QuayRule::Chunks => "chunks rise in the file and do not overlap",
        _ => "at most 30 frames a second",
    }
}

/// All that is found to be broken, rule by rule and in file order; nothing where it does not begin with the verdict.
pub fn breaks(movie: &Movie, verdict: Option<QuayFault>) -> Vec<Break> {
    let mut all: Vec<Break> = of_movie(movie).into_iter().collect();
    all.extend(movie.tracks().iter().flat_map(|track| of_track(movie, track)));
    all.sort_by_key(|broken| broken.rule);
    let first = all.first().map(|broken| (broken.rule, broken.track));
    if first == verdict.map(|fault| (fault.rule, fault.track)) {
        all
    } else {
        Vec::new()
    }
}

/// The first rule, which is the movie's.
fn of_movie(movie: &Movie) -> Option<Break> {
    let tracks = movie.tracks();
    let other = tracks.iter().find(|track| track.subtype != VIDEO);
    let words = match (tracks.len(), other) {
        (1..=2, None) => return None,
        (1..=2, Some(track)) => format!("track {} is {}", track.id, track.subtype),
        (0, _) => "it has no tracks".into(),
        (n, _) => format!("it has {n} tracks"),
    };
    Some(Break { rule: QuayRule::Tracks, track: None, place: Place::of(words) })
}

fn of_track(movie: &Movie, track: &Track) -> Vec<Break> {
    let trak = atoms::trak(movie.film().lent(), track.id.0);
    let descriptions = trak.map_or(0, |trak| trak.descriptions().len());
    let has_ctts = trak.is_some_and(|trak| trak.ctts().is_some());
    let has = |breaks: bool, words: String| breaks.then(|| Place::of(words));
    let mut found = vec![
        (QuayRule::Edits, has(track.edits > 1, format!("it has {} edits", track.edits))),
        (QuayRule::Descriptions, has(descriptions != 1, format!("it has {descriptions} descriptions"))),
        (QuayRule::CompositionOffsets, has(has_ctts, "it has a ctts".into())),
    ];
    found.extend(Walk::over(movie, track).places(movie, track));
    let broken = |(rule, place): (QuayRule, Option<Place>)| Some(Break { rule, track: Some(track.id), place: place? });
    found.into_iter().filter_map(broken).collect()
}

/// What is met by stepping through a track: the first sample that breaks each rule, and the first of the shortest.
#[derive(Default)]
struct Walk {
    sync: Option<(u32, MediaTime, String)>,
    size: Option<(u32, MediaTime)>,
    duration: Option<(u32, MediaTime)>,
    chunk: Option<(u32, MediaTime, String)>,
    shortest: Option<(u32, MediaTime, u32)>,
    /// The last sync sample.
    last_sync: u32,
    /// The chunk that the walk is in, where it begins, and where its samples end so far.
    in_chunk: (u32, u64, u64),
}

impl Walk {
    fn over(movie: &Movie, track: &Track) -> Walk {
        let mut walk = Walk::default();
        if let Ok(samples) = movie.samples(track.id) {
            (1..).zip(samples).for_each(|(n, sample)| walk.meet(n, &sample));
        }
        walk
    }

    fn meet(&mut self, n: u32, s: &Sample) {
        self.meet_sync(n, s);
        self.meet_chunk(n, s);
        if s.size == 0 {
            self.size.get_or_insert((n, s.decode));
        }
        if s.duration == 0 {
            self.duration.get_or_insert((n, s.decode));
        } else if self.shortest.is_none_or(|(_, _, least)| s.duration < least) {
            self.shortest = Some((n, s.decode, s.duration));
        }
    }

    fn meet_sync(&mut self, n: u32, s: &Sample) {
        if s.sync {
            self.last_sync = n;
        } else if n == 1 {
            self.sync.get_or_insert((n, s.decode, "it is no sync sample".into()));
        } else if n - self.last_sync >= MOST_OF_A_GROUP && self.last_sync > 0 {
            let words = format!("the sync sample before it is sample {}", self.last_sync);
            self.sync.get_or_insert((n, s.decode, words));
        }
    }

    fn meet_chunk(&mut self, n: u32, s: &Sample) {
        let (chunk, begin, end) = self.in_chunk;
        let after = s.offset + u64::from(s.size);
        if s.chunk == chunk {
            self.in_chunk.2 = after;
            return;
        }
        if chunk > 0 && (s.offset <= begin || s.offset < end) {
            let words =
                format!("chunk {} begins at byte {}, and chunk {chunk} lies from {begin} to {end}", s.chunk, s.offset);
            self.chunk.get_or_insert((n, s.decode, words));
        }
        self.in_chunk = (s.chunk, s.offset, after);
    }

    /// The rules that the samples break.
    fn places(self, movie: &Movie, track: &Track) -> [(QuayRule, Option<Place>); 5] {
        let at = |n, time, words: String| Place { sample: Some((n, time, track.scale)), words };
        let no_samples = (track.samples == 0).then(|| Place::of("it has no samples".into()));
        let sync = self.sync.map(|(n, time, words)| at(n, time, words)).or(no_samples);
        let frames = match movie.feature(track.id, Feature::HighestFrameRate) {
            Ok(frames) if frames <= MOST_FRAMES => None,
            Ok(frames) => self.shortest.map(|(n, time, duration)| {
                let rate = f64::from(frames) / 65536.0;
                at(n, time, format!("it lasts {duration} units, which are {rate:.3} frames a second"))
            }),
            Err(_) => Some(Place::of("its frame rate cannot be computed".into())),
        };
        [
            (QuayRule::SyncSamples, sync),
            (QuayRule::Sizes, self.size.map(|(n, time)| at(n, time, String::new()))),
            (QuayRule::Durations, self.duration.map(|(n, time)| at(n, time, String::new()))),
            (QuayRule::Chunks, self.chunk.map(|(n, time, words)| at(n, time, words))),
            (QuayRule::FrameRate, frames),
        ]
    }
}

#[cfg(test)]
mod tests {
    use super::*;
    use reference::maker::{self, Random};

    /// Of films from a seed what is found begins with the library's verdict, and has the reference's rules and tracks.
    #[test]
    fn what_is_found_is_the_verdict() {
        let mut rules = [0; 10];
        for n in 0..1500 {
            let mut random = Random::of(6, n);
            let film = if n % 3 == 0 { maker::valid(&mut random) } else { maker::quay::quay(&mut random) };
            let Ok(movie) = Movie::open(&film) else { continue };
            let verdict = movie.check_quay();
            let found = breaks(&movie, verdict);
            assert_eq!(found.is_empty(), verdict.is_none(), "film {n}: {verdict:?}");
            rules[found.first().map_or(0, |broken| broken.rule.number()) as usize] += 1;
        }
        assert!(rules.iter().all(|films| *films > 5), "{rules:?}");
    }
}
