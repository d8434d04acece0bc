//! A film, or a slip, put to the library and to the reference.
use crate::case::{compare, Difference, Lengths};
use crate::choose::{peaks, questions};
use crate::counts::Counts;
use crate::faults;
use crate::question::{any_slip_answer, slip_answer, Answered, Film, Question, Way};
use crate::steps::{self, Kept};
use reference::maker::Random;
use reference::movie::MoovAlone;

/// One film in so many is asked everything again with compact tables.
const COMPACT_EVERY: usize = 8;

/// The comparison so far.
#[derive(Default)]
pub struct Comparison {
    pub counts: Counts,
    /// Positions in the films before.
    pub kept: Vec<Kept>,
    /// Handles of their tracks, and the indices of these.
    pub handles: Vec<Vec<u64>>,
    pub indices: Vec<Vec<u64>>,
}

/// What is asked about: a film or a slip as it is lent.
pub enum Bytes<'a> {
    /// A copy that begins at any alignment and has other bytes around it, so that it depends on none of these what is answered.
    Copy { original: &'a [u8], all: Vec<u8>, begin: usize },
    /// In memory that nothing can write to.
    ReadOnly(&'a [u8]),
}

impl Bytes<'_> {
    pub fn copy<'a>(random: &mut Random, original: &'a [u8]) -> Bytes<'a> {
        let begin = 8 + random.below(8);
        let mut all = vec![random.byte(); begin + original.len() + 8];
        all[begin..begin + original.len()].copy_from_slice(original);
        Bytes::Copy { original, all, begin }
    }

    pub fn lent(&self) -> &[u8] {
        match self {
            Bytes::Copy { original, all, begin } => &all[*begin..*begin + original.len()],
            Bytes::ReadOnly(lent) => lent,
        }
    }

    fn are_unchanged(&self) -> bool {
        match self {
            Bytes::Copy { original, .. } => self.lent() == *original,
            Bytes::ReadOnly(_) => true,
        }
    }
}

/// A difference that is not in the answer itself.
fn other(question: Question, way: Way, lengths: Lengths, fault: &str) -> Box<Difference> {
    let (library, reference) = (String::new(), String::new());
    Box::new(Difference {
        question: format!("{question:?}"),
        way,
        lengths,
        library,
        reference,
        fault: fault.to_string(),
    })
}

/// A film as it is lent, and as the reference reads it.
pub struct Asked<'a> {
    pub bytes: &'a Bytes<'a>,
    pub way: Way,
    pub film: Film,
}

impl<'a> Asked<'a> {
    pub fn of(bytes: &'a Bytes, way: Way) -> Asked<'a> {
        let film = match way {
            Way::Whole => Film::of(bytes.lent()),
            Way::Moov(length) => Film::of(&MoovAlone { moov: bytes.lent(), length }),
        };
        Asked { bytes, way, film }
    }
}

impl Comparison {
    /// Puts one question with memory of those lengths, counts it and answers what the library wrote.
    fn case(
        &mut self,
        (bytes, way): (&Bytes, Way),
        question: Question,
        answer: &Answered,
        lengths: Lengths,
    ) -> Result<(u32, Vec<u64>, Vec<u8>), Box<Difference>> {
        let (number, lent) = compare((bytes.lent(), way), question, answer, lengths)?;
        if !bytes.are_unchanged() {
            return Err(other(question, way, lengths, "the film was written to"));
        }
        self.counts.question(question.kind(way), number);
        Ok((number, lent.places.elements().to_vec(), lent.bytes.elements().to_vec()))
    }

    /// Puts a question about a film with memory of any lengths; a slip that is written is read back.
    fn question(&mut self, random: &mut Random, asked: &Asked, question: Question) -> Result<(), Box<Difference>> {
        let Asked { bytes, way, film } = asked;
        let answer = question.answer(film);
        let lengths = Lengths::any(random, question, &answer);
        let (number, places, written) = self.case((bytes, *way), question, &answer, lengths)?;
        if film.strict != film.number() {
            self.counts.strict(question.kind(*way), number);
        }
        if number != 0 {
            return Ok(());
        }
        let fault = |words| other(question, *way, lengths, words);
        match question {
            Question::CheckProfile { .. } => {
                self.counts.profile(places[0] == 0);
                Ok(())
            }
            Question::CheckQuay => {
                self.counts.quay(places[0]);
                Ok(())
            }
            Question::SampleBytes { .. } if places[0] + places[1] > u64::try_from(bytes.lent().len()).unwrap() => {
                Err(fault("the sample's bytes pass the file's end"))
            }
            Question::WriteSlip { id, a, b } => {
                let slip = &written[..usize::try_from(places[0]).unwrap()];
                if *way == Way::Whole && slip[0] != 1 {
                    return Err(fault("the slip of a whole file is not of form 1"));
                }
                let head = self.slip(random, slip)?;
                self.same_numbers(film, (id, a, b), head).map_err(fault)
            }
            _ => Ok(()),
        }
    }

    /// The numbers read from a slip are those of the stretch of which it was written.
    fn same_numbers(&self, film: &Film, (id, a, b): (u32, u32, u32), slip: Answered) -> Result<(), &'static str> {
        let Ok(slip) = slip else {
            return Err("the slip written is refused");
        };
        let stretch = Question::Stretch { id, a, b }.answer(film).unwrap();
        let scale = film.movie.as_ref().unwrap().track(id).unwrap().tables.scale;
        let head = vec![u64::from(id), scale, u64::from(a), u64::from(b), stretch.places[0], 0];
        if slip.places == head && slip.numbers == stretch.numbers {
            Ok(())
        } else {
            Err("the slip written reads as another stretch")
        }
    }

    /// Asks everything about a film, and of one film in so many everything again with compact tables.
    pub fn film(&mut self, random: &mut Random, bytes: &Bytes, way: Way, rounds: usize) -> Result<(), Box<Difference>> {
        let asked = Asked::of(bytes, way);
        self.counts.film(way, asked.film.number(), asked.film.strict);
        if asked.film.movie.is_ok() {
            self.counts.fragments(asked.film.fragments);
        }
        self.everything(random, &asked, rounds)?;
        if matches!(bytes, Bytes::Copy { .. }) && random.once_in(COMPACT_EVERY) {
            self.compacted(random, &asked, rounds)?;
        }
        Ok(())
    }

    /// Puts so many rounds of every question about a film, and once the questions about the highest rates of each track; then its tracks are stepped
    /// through, opened and indexed.
    pub fn everything(&mut self, random: &mut Random, asked: &Asked, rounds: usize) -> Result<(), Box<Difference>> {
        let Asked { bytes, way, film } = asked;
        let way = *way;
        // Another round for a refused film would ask the same.
        let rounds = if film.movie.is_ok() { rounds } else { 1 };
        let is_offered = |question: &Question| way == Way::Whole || question.is_of_moov();
        for _ in 0..rounds {
            for question in questions(random, &film.movie).into_iter().filter(is_offered) {
                self.question(random, asked, question)?;
            }
        }
        for question in peaks(&film.movie) {
            self.question(random, asked, question)?;
        }
        self.returns(random, bytes.lent(), way, film)?;
        self.steps(random, bytes.lent(), way, film)?;
        self.opened(random, bytes.lent(), way, film)?;
        if !bytes.are_unchanged() {
            return Err(steps::difference(way, "stepping", "the film was written to"));
        }
        Ok(())
    }

    /// Reads a slip by both readers, with exactly the room it needs and with memory of any lengths. Answers how the reference reads it in either form.
    pub fn slip(&mut self, random: &mut Random, slip: &[u8]) -> Result<Answered, Box<Difference>> {
        let bytes = Bytes::copy(random, slip);
        self.slip_by(random, &bytes, Question::ReadSlip, &slip_answer(slip))?;
        let answer = any_slip_answer(slip);
        self.counts.slip(slip, answer.as_ref().err().map(|refused| faults::kind(slip, refused.place)));
        self.slip_by(random, &bytes, Question::ReadAnySlip, &answer)?;
        Ok(answer)
    }

    fn slip_by(
        &mut self,
        random: &mut Random,
        bytes: &Bytes,
        reader: Question,
        answer: &Answered,
    ) -> Result<(), Box<Difference>> {
        for lengths in [Lengths::exact(reader, answer, random.bits()), Lengths::any(random, reader, answer)] {
            self.case((bytes, Way::Whole), reader, answer, lengths)?;
        }
        Ok(())
    }
}
