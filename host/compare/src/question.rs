//! The questions, and what the reference answers.
use reference::movie::fragments::has_fragments;
use reference::movie::refusals::read;
use reference::movie::tables::{Movie, Sample};
use reference::movie::{strict_refusal, Film as Lendable};
use reference::slip::{read_any_slip, read_slip};

/// A question of include/chaldoref.h.
#[derive(Clone, Copy, Debug, PartialEq)]
pub enum Question {
    TrackList,
    Sample { id: u32, n: u32 },
    SampleBytes { id: u32, n: u32 },
    SampleAt { id: u32, t: u32 },
    MediaTime { id: u32, t: u32 },
    Stretch { id: u32, a: u32, b: u32 },
    Movie,
    Edits { id: u32 },
    Profile { id: u32 },
    CheckProfile { id: u32 },
    CheckQuay,
    Feature { id: u32, code: u32 },
    Peak { id: u32, code: u32 },
    ReadSlip,
    ReadAnySlip,
    WriteSlip { id: u32, a: u32, b: u32 },
    Compact,
    Fragments,
}

/// How a film is lent: its whole file, or its moov alone with the length of its file.
#[derive(Clone, Copy, Debug, PartialEq)]
pub enum Way {
    Whole,
    Moov(u64),
}

/// How the functions are called, in the order of `Question::place`, and how many places each fills.
const FUNCTIONS: [(&str, usize); 18] = [
    ("track_list", 1),
    ("sample", 8),
    ("sample_bytes", 2),
    ("sample_at", 2),
    ("media_time", 2),
    ("stretch", 2),
    ("profile", 1),
    ("feature", 1),
    ("peak", 2),
    ("read_slip", 6),
    ("write_slip", 1),
    ("read_any_slip", 6),
    ("movie", 2),
    ("edits", 1),
    ("check_profile", 1),
    ("check_quay", 2),
    ("compact", 1),
    ("fragments", 2),
];

/// Every function of include/chaldoref.h but the step at top level: those of a whole file and of slips, then those of a moov alone, then the film
/// return, the steps, those of a track that is opened once and those of its index.
pub const KINDS: [&str; 2 * FUNCTIONS.len() - 3 + 17] = [
    "track_list",
    "sample",
    "sample_bytes",
    "sample_at",
    "media_time",
    "stretch",
    "profile",
    "feature",
    "peak",
    "read_slip",
    "write_slip",
    "read_any_slip",
    "movie",
    "edits",
    "check_profile",
    "check_quay",
    "compact",
    "fragments",
    "moov_track_list",
    "moov_sample",
    "moov_sample_at",
    "moov_media_time",
    "moov_stretch",
    "moov_profile",
    "moov_feature",
    "moov_peak",
    "moov_write_slip",
    "moov_movie",
    "moov_edits",
    "moov_check_profile",
    "moov_check_quay",
    "moov_compact",
    "moov_fragments",
    "film_return",
    "moov_film_return",
    "join_returns",
    "step_start",
    "moov_step_start",
    "step",
    "steps",
    "open",
    "moov_open",
    "opened_sample",
    "opened_sample_at",
    "opened_media_time",
    "opened_stretch",
    "opened_step_start",
    "index",
    "indexed_sample",
    "indexed_sample_at",
];

/// The place of a function among `KINDS`.
pub fn kind_of(name: &str) -> usize {
    KINDS.iter().position(|kind| *kind == name).expect("the function has a name")
}

/// A film as the reference reads it.
pub struct Film {
    /// By default: the movie, or the number with which the file is refused.
    pub movie: Result<Movie, u32>,
    /// The number with which it is refused where strict reading is asked for, 0 for none.
    pub strict: u32,
    /// Its moov with compact tables; nothing where it is refused.
    pub compact_moov: Vec<u8>,
    /// Whether its moov has an mvex, and the file a moof at top level; no where it is refused.
    pub fragments: [bool; 2],
}

impl Film {
    pub fn of(film: &(impl Lendable + ?Sized)) -> Film {
        let movie = read(film);
        let compact_moov = movie.as_ref().map_or_else(|_| Vec::new(), |movie| movie.compact_moov(film.lent().bytes));
        let fragments = movie.as_ref().map_or([false; 2], |_| has_fragments(film));
        Film { movie, strict: strict_refusal(film), compact_moov, fragments }
    }

    /// The number with which it is refused by default, 0 for none.
    pub fn number(&self) -> u32 {
        self.movie.as_ref().err().copied().unwrap_or(0)
    }
}

/// An answer: its own numbers, and what goes to the lent numbers or bytes.
#[derive(Clone, Debug, Default, PartialEq)]
pub struct Answer {
    pub places: Vec<u64>,
    pub numbers: Vec<u64>,
    pub bytes: Vec<u8>,
}

/// A refusal: its number, and the place of the fault, which is 0 but for 17.
#[derive(Clone, Copy, Debug, PartialEq)]
pub struct Refused {
    pub number: u32,
    pub place: usize,
}

impl From<u32> for Refused {
    fn from(number: u32) -> Refused {
        Refused { number, place: 0 }
    }
}

/// What the reference answers; room plays no part yet.
pub type Answered = Result<Answer, Refused>;

fn long(n: usize) -> u64 {
    u64::try_from(n).unwrap()
}

impl Question {
    /// The place of the function among `FUNCTIONS`.
    fn place(&self) -> usize {
        match self {
            Question::TrackList => 0,
            Question::Sample { .. } => 1,
            Question::SampleBytes { .. } => 2,
            Question::SampleAt { .. } => 3,
            Question::MediaTime { .. } => 4,
            Question::Stretch { .. } => 5,
            Question::Profile { .. } => 6,
            Question::Feature { .. } => 7,
            Question::Peak { .. } => 8,
            Question::ReadSlip => 9,
            Question::WriteSlip { .. } => 10,
            Question::ReadAnySlip => 11,
            Question::Movie => 12,
            Question::Edits { .. } => 13,
            Question::CheckProfile { .. } => 14,
            Question::CheckQuay => 15,
            Question::Compact => 16,
            Question::Fragments => 17,
        }
    }

    /// The place of the function that is called, among `KINDS`.
    pub fn kind(&self, way: Way) -> usize {
        let name = FUNCTIONS[self.place()].0;
        kind_of(&if way == Way::Whole { name.to_string() } else { format!("moov_{name}") })
    }

    pub fn places(&self) -> usize {
        FUNCTIONS[self.place()].1
    }

    /// Whether the numbers of its list have 64 bits.
    pub fn is_wide(&self, way: Way) -> bool {
        match self {
            Question::Stretch { .. } => way != Way::Whole,
            Question::ReadAnySlip | Question::Edits { .. } => true,
            _ => false,
        }
    }

    /// Whether it is offered where the moov is lent alone.
    pub fn is_of_moov(&self) -> bool {
        !matches!(self, Question::SampleBytes { .. })
    }

    /// The reference's answer about a film. The slip writer alone reads it strictly.
    pub fn answer(&self, film: &Film) -> Answered {
        if matches!(self, Question::WriteSlip { .. }) && film.strict != 0 {
            return Err(film.strict.into());
        }
        let movie = film.movie.as_ref().map_err(|number| *number)?;
        Ok(match *self {
            Question::TrackList => listed(movie.track_list().into_iter()),
            Question::Sample { id, n } => only(&sample_places(&movie.sample(id, n)?)),
            Question::SampleBytes { id, n } => {
                let sample = movie.sample(id, n)?;
                only(&[sample.offset, sample.size])
            }
            Question::SampleAt { id, t } => {
                let (n, entry) = movie.sample_at(id, u64::from(t))?;
                only(&[n, entry])
            }
            Question::MediaTime { id, t } => match movie.media_time(id, u64::from(t))? {
                Some(media_time) => only(&[1, media_time]),
                None => only(&[0, 0]),
            },
            Question::Stretch { id, a, b } => {
                let stretch = movie.stretch(id, u64::from(a), u64::from(b))?;
                let mut answer = listed(stretch.pairs.iter().map(|(offset, length)| [*offset, *length]));
                answer.places.push(stretch.bytes);
                answer
            }
            Question::Movie => only(&[movie.scale, movie.duration]),
            Question::Edits { id } => {
                let edits = movie.edit_list(id)?;
                listed(edits.iter().map(|edit| [edit.duration, bits(edit.media_time), edit.rate]))
            }
            Question::Profile { id } => {
                let records = movie.stored_profile(id)?;
                listed(records.into_iter().map(|record| [record.part_id, record.code, record.value]))
            }
            Question::CheckProfile { id } => only(&[movie.profile_fault(id)?.unwrap_or(0)]),
            Question::CheckQuay => {
                let (rule, id) = movie.quay_fault().unwrap_or((0, 0));
                only(&[rule, id])
            }
            Question::Feature { id, code } => only(&[u64::from(movie.feature(id, code)?)]),
            Question::Peak { id, code } => {
                let (first, samples) = movie.peak(id, code)?;
                only(&[first, samples])
            }
            Question::WriteSlip { id, a, b } => written(movie.slip(id, a, b)?),
            Question::Compact => written(film.compact_moov.clone()),
            Question::Fragments => only(&film.fragments.map(u64::from)),
            Question::ReadSlip | Question::ReadAnySlip => unreachable!("a slip is no film"),
        })
    }
}

/// An answer without a list.
fn only(places: &[u64]) -> Answer {
    Answer { places: places.to_vec(), ..Answer::default() }
}

/// Bytes, with their number.
fn written(bytes: Vec<u8>) -> Answer {
    Answer { places: vec![long(bytes.len())], bytes, ..Answer::default() }
}

/// A list, with the number of rows.
fn listed<const WIDTH: usize>(rows: impl Iterator<Item = [u64; WIDTH]>) -> Answer {
    let numbers: Vec<u64> = rows.flatten().collect();
    Answer { numbers: numbers.clone(), ..only(&[long(numbers.len() / WIDTH)]) }
}

/// A signed number as its bits.
fn bits(signed: i64) -> u64 {
    u64::from_ne_bytes(signed.to_ne_bytes())
}

/// A sample's numbers in the order of include/chaldoref.h, the composition time as its bits.
pub fn sample_places(sample: &Sample) -> [u64; 8] {
    [
        sample.decode_time,
        sample.duration,
        bits(sample.composition_time),
        u64::from(sample.is_sync),
        sample.description_id,
        sample.chunk,
        sample.offset,
        sample.size,
    ]
}

/// The reference's reading of a slip of form 1. A slip has a byte at least for each number, so this room is enough.
pub fn slip_answer(slip: &[u8]) -> Answered {
    let mut numbers = vec![0; slip.len()];
    let (number, head, place) = read_slip(slip, &mut numbers);
    let head = [head.id, head.scale, head.a, head.b, head.pairs].map(u64::from);
    slip_read((number, place), head, numbers.into_iter().map(u64::from).collect())
}

/// The same of a slip of either form.
pub fn any_slip_answer(slip: &[u8]) -> Answered {
    let mut numbers = vec![0; slip.len()];
    let (number, head, place) = read_any_slip(slip, &mut numbers);
    slip_read((number, place), [head.id, head.scale, head.a, head.b, head.pairs], numbers)
}

fn slip_read((number, place): (u32, usize), head: [u64; 5], mut numbers: Vec<u64>) -> Answered {
    if number != 0 {
        return Err(Refused { number, place });
    }
    numbers.truncate(2 * usize::try_from(head[4]).unwrap());
    Ok(Answer { numbers, ..only(&[&head[..], &[0]].concat()) })
}
