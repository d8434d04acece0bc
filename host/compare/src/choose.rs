//! Which questions to put to a film: numbers near each place where an answer changes, and any others.
use crate::question::Question;
use reference::maker::Random;
use reference::movie::tables::{Movie, Track};

/// The features of sound, those of pictures, and the highest rates over a second.
const SOUND_CODES: [&[u8; 4]; 2] = [b"avab", b"mabr"];
const PICTURE_CODES: [&[u8; 4]; 4] = [b"avvb", b"tvsz", b"vfps", b"mvbr"];
const PEAK_CODES: [&[u8; 4]; 2] = [b"mvbr", b"mabr"];

/// A number or a neighbour of it, as a number of 32 bits.
fn near(random: &mut Random, n: u64) -> u32 {
    let n = (n + random.one(&[0, 1, 1, 2])).saturating_sub(1);
    u32::try_from(n).unwrap_or(u32::MAX)
}

fn any_track<'a>(random: &mut Random, film: &'a Result<Movie, u32>) -> Option<&'a Track> {
    let tracks = &film.as_ref().ok()?.tracks;
    (!tracks.is_empty()).then(|| &tracks[random.below(tracks.len())])
}

/// The track's ID; 1 where there is none.
fn own_id(track: Option<&Track>) -> u32 {
    track.map_or(1, |track| u32::try_from(track.tables.id).unwrap())
}

/// The track's ID, seldom another: 0, a neighbour, any.
fn id(random: &mut Random, track: Option<&Track>) -> u32 {
    let own = own_id(track);
    let any = random.number();
    if random.once_in(10) {
        random.one(&[0, 1, 2, own.wrapping_add(1), own ^ (1 << 31), any])
    } else {
        own
    }
}

fn sample_number(random: &mut Random, track: Option<&Track>) -> u32 {
    let samples = track.map_or(0, |track| track.samples.len());
    let n = u64::try_from(samples).unwrap();
    let inside = 1 + u64::try_from(random.below(samples.max(1))).unwrap();
    let place = random.one(&[0, 1, n, n + 1, inside, inside, inside, inside, u64::from(u32::MAX)]);
    u32::try_from(place).unwrap()
}

/// A media time: the ends of samples, of the whole, or any.
fn media_time(random: &mut Random, track: Option<&Track>) -> u32 {
    let Some(track) = track else {
        return random.one(&[0, 1, u32::MAX]);
    };
    let inside = random.bits() % track.total.max(1);
    let start = match track.samples.len() {
        0 => 0,
        n => track.samples[random.below(n)].decode_time,
    };
    let t = random.one(&[0, inside, inside, start, start, track.total, u64::from(u32::MAX)]);
    near(random, t)
}

/// The movie times at which an edit ends; without a list, at which the media does.
fn movie_ends(track: &Track, movie_scale: u64) -> Vec<u64> {
    match &track.tables.edits {
        None => {
            let end = u128::from(track.total) * u128::from(movie_scale);
            vec![u64::try_from(end.div_ceil(u128::from(track.tables.scale))).unwrap()]
        }
        Some(edits) => {
            let mut end = 0;
            edits
                .iter()
                .map(|edit| {
                    end += edit.duration;
                    end
                })
                .collect()
        }
    }
}

fn movie_time(random: &mut Random, track: Option<&Track>, movie_scale: u64) -> u32 {
    let Some(track) = track else {
        return random.one(&[0, 1, u32::MAX]);
    };
    let ends = movie_ends(track, movie_scale);
    let end = random.one(&ends);
    let last = u64::from(u32::MAX);
    let inside = random.bits() % ends[ends.len() - 1].clamp(1, last);
    let t = random.one(&[0, inside, inside, end, end, end.min(last), last]);
    near(random, t)
}

/// A stretch that lies inside, its ends anywhere or where samples begin.
fn inside(random: &mut Random, track: &Track) -> (u32, u32) {
    let mut time = || match random.below(2) {
        0 => track.samples[random.below(track.samples.len())].decode_time,
        _ => random.bits() % track.total,
    };
    let (x, y) = (time(), time());
    let a = x.min(y).min(track.total - 1);
    let b = x.max(y).max(a + 1);
    (u32::try_from(a).unwrap(), u32::try_from(b).unwrap())
}

/// From a to b: inside, whole, empty, reversed, past the end, or any.
fn stretch(random: &mut Random, track: Option<&Track>) -> (u32, u32) {
    let total = track.map_or(0, |track| u32::try_from(track.total).unwrap());
    let (x, y) = (media_time(random, track), media_time(random, track));
    match (random.below(14), track) {
        (0, _) => (0, total),
        (1, _) => (x, x.saturating_add(1)),
        (2, _) => (x, x),
        (3, _) => (x.max(y), x.min(y)),
        (4, _) => (x, total.saturating_add(random.up_to(1))),
        (5, _) => (0, x),
        (6..=11, Some(track)) if total > 0 => inside(random, track),
        _ => (x.min(y), x.max(y)),
    }
}

/// A feature's code, mostly one for the track's subtype.
fn code(random: &mut Random, track: Option<&Track>) -> u32 {
    let is_sound = track.is_some_and(|track| track.tables.subtype == u64::from(u32::from_be_bytes(*b"soun")));
    let known = number(random.one(&[SOUND_CODES.as_slice(), &PICTURE_CODES].concat()));
    let fitting = number(if is_sound { random.one(&SOUND_CODES) } else { random.one(&PICTURE_CODES) });
    let any = random.number();
    random.one(&[known, known, fitting, fitting, fitting, known ^ 1, 0, any])
}

fn number(code: &[u8; 4]) -> u32 {
    u32::from_be_bytes(*code)
}

/// Both highest rates over a second, and where they are, of each track; of track 1 where there is none.
pub fn peaks(film: &Result<Movie, u32>) -> Vec<Question> {
    let tracks = film.as_ref().map_or(&[][..], |movie| &movie.tracks);
    let mut ids: Vec<u32> = tracks.iter().map(|track| own_id(Some(track))).collect();
    if ids.is_empty() {
        ids.push(own_id(None));
    }
    let mut questions = Vec::new();
    for id in ids {
        for code in PEAK_CODES.map(number) {
            questions.extend([Question::Feature { id, code }, Question::Peak { id, code }]);
        }
    }
    questions
}

/// The questions that a track answers by its index: samples by their numbers and by their times.
pub fn lookups(random: &mut Random, track: &Track) -> [Question; 2] {
    let id = own_id(Some(track));
    [
        Question::Sample { id, n: sample_number(random, Some(track)) },
        Question::SampleAt { id, t: media_time(random, Some(track)) },
    ]
}

/// Those that it answers where it is opened once: the same, movie times and stretches.
pub fn by_handle(random: &mut Random, track: &Track, movie_scale: u64) -> [Question; 4] {
    let id = own_id(Some(track));
    let [sample, sample_at] = lookups(random, track);
    let (a, b) = stretch(random, Some(track));
    [
        sample,
        sample_at,
        Question::MediaTime { id, t: movie_time(random, Some(track), movie_scale) },
        Question::Stretch { id, a, b },
    ]
}

/// One question of each kind but the reading of a slip, to a film as the reference reads it.
pub fn questions(random: &mut Random, film: &Result<Movie, u32>) -> Vec<Question> {
    let scale = film.as_ref().map_or(1, |movie| movie.scale);
    let track = any_track(random, film);
    let (n, m) = (sample_number(random, track), sample_number(random, track));
    let (x, y) = (stretch(random, track), stretch(random, track));
    let profile_id = id(random, track);
    vec![
        Question::TrackList,
        Question::Sample { id: id(random, track), n },
        Question::SampleBytes { id: id(random, track), n: m },
        Question::SampleAt { id: id(random, track), t: media_time(random, track) },
        Question::MediaTime { id: id(random, track), t: movie_time(random, track, scale) },
        Question::Stretch { id: id(random, track), a: x.0, b: x.1 },
        Question::Movie,
        Question::Edits { id: id(random, track) },
        Question::Profile { id: random.one(&[0, profile_id, profile_id]) },
        Question::CheckProfile { id: id(random, track) },
        Question::CheckQuay,
        Question::Feature { id: id(random, track), code: code(random, track) },
        Question::Peak { id: id(random, track), code: code(random, track) },
        Question::WriteSlip { id: id(random, track), a: y.0, b: y.1 },
        Question::Compact,
        Question::Fragments,
    ]
}
