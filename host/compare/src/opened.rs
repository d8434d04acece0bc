//! Tracks opened once: by the handle, and by an index, each question has the answer that it has without. Those of other films are safe.
use crate::case::{expected, Difference, Lengths};
use crate::choose::by_handle;
use crate::films::Comparison;
use crate::lent::Lent;
use crate::library::{ask_indexed, ask_opened, open};
use crate::question::{kind_of, Answer, Answered, Film, Question, Way};
use crate::steps::{alter, difference, keep};
use reference::maker::Random;

/// As include/chaldoref.h has it.
pub const HANDLE: usize = 19;

pub const OUTSIDE: u32 = 15;
pub const NO_ROOM: u32 = 16;

/// So often the questions are put by a handle, and by an index.
pub const ROUNDS: usize = 3;

/// What a question is put by: the numbers of a handle and, for a lookup by it, of an index.
pub struct By<'a> {
    handle: &'a [u64],
    index: Option<&'a [u64]>,
}

impl<'a> By<'a> {
    pub fn handle(handle: &'a [u64]) -> By<'a> {
        By { handle, index: None }
    }

    pub fn index(handle: &'a [u64], index: &'a [u64]) -> By<'a> {
        By { handle, index: Some(index) }
    }

    /// How the function is called that puts the question so.
    fn name(&self, question: Question) -> &'static str {
        match (question, self.index) {
            (Question::Sample { .. }, None) => "opened_sample",
            (Question::SampleAt { .. }, None) => "opened_sample_at",
            (Question::MediaTime { .. }, None) => "opened_media_time",
            (Question::Stretch { .. }, None) => "opened_stretch",
            (Question::Sample { .. }, Some(_)) => "indexed_sample",
            (Question::SampleAt { .. }, Some(_)) => "indexed_sample_at",
            _ => unreachable!("no question by a handle or an index"),
        }
    }
}

/// How the function is called that opens a track.
fn open_name(way: Way) -> &'static str {
    if way == Way::Whole {
        "open"
    } else {
        "moov_open"
    }
}

/// What was lent with what should be written, or the difference.
pub fn check(way: Way, asked: &str, lent: &Lent<u64>, written: &[u64]) -> Result<(), Box<Difference>> {
    lent.fault(written).map_or(Ok(()), |fault| Err(difference(way, asked, &fault)))
}

/// The number that came back is the one that should.
pub fn check_number(way: Way, asked: &str, number: u32, expected: u32) -> Result<(), Box<Difference>> {
    if number == expected {
        return Ok(());
    }
    Err(difference(way, asked, &format!("the result is {number}, should be {expected}")))
}

/// What a call by the numbers of another film may answer and write: any answer that there is room for, or a refusal of the question, never one of
/// the film.
fn safe(question: Question, number: u32, room: &[u64], places: &[u64]) -> (u32, Answer) {
    let Some(places) = places.get(..question.places()) else {
        return (if number == OUTSIDE { OUTSIDE } else { NO_ROOM }, Answer::default());
    };
    let refused = Answer { places: vec![0; places.len()], ..Answer::default() };
    if number != 0 {
        return (if number == OUTSIDE { OUTSIDE } else { NO_ROOM }, refused);
    }
    let list = if matches!(question, Question::Stretch { .. }) { 2 * u128::from(places[0]) } else { 0 };
    match usize::try_from(list).ok().and_then(|list| room.get(..list)) {
        Some(list) => (0, Answer { places: places.to_vec(), numbers: list.to_vec(), ..Answer::default() }),
        None => (NO_ROOM, refused),
    }
}

impl Comparison {
    /// Opens a track, with so many numbers lent for the handle; answers it, if it is opened.
    fn open(
        &mut self,
        random: &mut Random,
        (lent, way): (&[u8], Way),
        id: u32,
        length: usize,
        expected: u32,
    ) -> Result<Option<Vec<u64>>, Box<Difference>> {
        let expected = if expected == 0 && length < HANDLE { NO_ROOM } else { expected };
        let asked = format!("{} of track {id}", open_name(way));
        let mut handle = Lent::new(length, random.bits());
        let number = open(lent, way, id, &mut handle);
        check_number(way, &asked, number, expected)?;
        self.counts.question(kind_of(open_name(way)), number);
        if number == 0 {
            let numbers = handle.elements()[..HANDLE].to_vec();
            check(way, &asked, &handle, &numbers)?;
            return Ok(Some(numbers));
        }
        check(way, &asked, &handle, &vec![0; if length < HANDLE { 0 } else { HANDLE }])?;
        Ok(None)
    }

    /// Puts a question by a handle or an index, with memory of any lengths. Where they are the film's own the answer is known.
    pub fn ask_by(
        &mut self,
        random: &mut Random,
        (lent, way): (&[u8], Way),
        by: By,
        question: Question,
        answer: Option<&Answered>,
    ) -> Result<(), Box<Difference>> {
        let lengths = Lengths::any(random, question, answer.unwrap_or(&Err(OUTSIDE.into())));
        let mut handle = Lent::holding(by.handle, random.bits());
        let mut index = by.index.map(|numbers| Lent::holding(numbers, random.bits()));
        let (mut room, mut places) = (Lent::new(lengths.room, random.bits()), Lent::new(lengths.places, random.bits()));
        let number = match &mut index {
            None => ask_opened(lent, question, &mut handle, &mut room, &mut places),
            Some(index) => ask_indexed(lent, question, &mut handle, index, &mut places),
        };
        let (expected, written) = match answer {
            // With too few numbers there is no handle to be asked.
            _ if by.handle.len() < HANDLE => (NO_ROOM, Answer::default()),
            Some(answer) => expected(question, answer, lengths),
            None => safe(question, number, room.elements(), places.elements()),
        };
        let asked = format!("{}: {question:?}", by.name(question));
        check_number(way, &asked, number, expected)?;
        self.counts.question(kind_of(by.name(question)), number);
        check(way, &asked, &handle, by.handle)?;
        if let (Some(index), Some(numbers)) = (&index, by.index) {
            check(way, &asked, index, numbers)?;
        }
        check(way, &asked, &room, &written.numbers)?;
        check(way, &asked, &places, &written.places)
    }

    /// Every track opened, the questions by its handle and by its index, and by those of the films before.
    pub fn opened(&mut self, random: &mut Random, lent: &[u8], way: Way, film: &Film) -> Result<(), Box<Difference>> {
        let fewer = random.below(HANDLE);
        let movie = match &film.movie {
            Err(number) => {
                self.open(random, (lent, way), 1, HANDLE, *number)?;
                return self.open(random, (lent, way), 1, fewer, *number).map(drop);
            }
            Ok(movie) => movie,
        };
        let unknown = (1..).find(|id| movie.track(*id).is_err()).unwrap();
        self.open(random, (lent, way), unknown, HANDLE, 14)?;
        for track in &movie.tracks {
            let id = u32::try_from(track.tables.id).unwrap();
            self.open(random, (lent, way), id, fewer, 0)?;
            let more = random.below(3);
            let handle = self.open(random, (lent, way), id, HANDLE + more, 0)?.expect("it is answered");
            for _ in 0..ROUNDS {
                for question in by_handle(random, track, movie.scale) {
                    let answer = question.answer(film);
                    self.ask_by(random, (lent, way), By::handle(&handle), question, Some(&answer))?;
                    self.ask_by(random, (lent, way), By::handle(&handle[..fewer]), question, Some(&answer))?;
                    let other = self.any_handle(random);
                    self.ask_by(random, (lent, way), By::handle(&other), question, None)?;
                }
            }
            self.opened_starts(random, (lent, way), track, &handle)?;
            self.indexed(random, (lent, way), track, &handle, film)?;
            keep(&mut self.handles, random, handle);
        }
        if film.strict != film.number() {
            let by_handle =
                ["opened_sample", "opened_sample_at", "opened_media_time", "opened_stretch", "opened_step_start"];
            for name in [open_name(way), "index", "indexed_sample", "indexed_sample_at"].into_iter().chain(by_handle) {
                self.counts.strict(kind_of(name), 0);
            }
        }
        Ok(())
    }

    /// The handle of another film, or numbers of any kind.
    pub fn any_handle(&self, random: &mut Random) -> Vec<u64> {
        any_of(&self.handles, random, HANDLE)
    }
}

/// Numbers that were kept of another film, so many zeros where there are none, or numbers of any kind.
pub fn any_of(kept: &[Vec<u64>], random: &mut Random, length: usize) -> Vec<u64> {
    let mut numbers = match kept.len() {
        0 => vec![0; length],
        count => kept[random.below(count)].clone(),
    };
    if random.once_in(2) && !numbers.is_empty() {
        alter(&mut numbers, random);
    }
    numbers
}
