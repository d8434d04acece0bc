//! A question with the lengths of what is lent for it: what the reference expects, and whether the library does just that.
use crate::lent::Lent;
use crate::library::{ask, Lending};
use crate::question::{Answer, Answered, Question, Way};
use reference::maker::Random;

const NO_ROOM: u32 = 16;

/// How many elements are lent, and the pattern that fills them.
#[derive(Clone, Copy, Debug)]
pub struct Lengths {
    pub room: usize,
    pub places: usize,
    pub pattern: u64,
}

impl Lengths {
    /// As many as the answer needs.
    pub fn exact(question: Question, answer: &Answered, pattern: u64) -> Lengths {
        Lengths { room: needed(answer), places: question.places(), pattern }
    }

    /// Mostly enough: exactly as many as the answer needs, or more; else none, one too few, or some.
    pub fn any(random: &mut Random, question: Question, answer: &Answered) -> Lengths {
        // With a refusal any room is left as it is, a long one too.
        let room = if answer.is_ok() { needed(answer) } else { random.one(&[0, 7, 30, 120]) };
        let places = question.places();
        let more = 1 + random.below(9);
        Lengths {
            room: match random.below(12) {
                0 => 0,
                1 => room.saturating_sub(1),
                2 => random.below(room + 1),
                3..=5 => room + more,
                _ => room,
            },
            places: match random.below(12) {
                0 => random.below(places),
                1 | 2 => places + more,
                _ => places,
            },
            pattern: random.bits(),
        }
    }
}

/// How long a room the answer needs; a refusal needs none.
fn needed(answer: &Answered) -> usize {
    answer.as_ref().map_or(0, |answer| answer.numbers.len() + answer.bytes.len())
}

/// What the library should return, and what it should write to the first elements of all that is lent. "Order: file refusal, 14, 15 or 18, then 16":
/// too few places are refused 16 as room is, and then nothing at all is written. Of a malformed slip the last place says where it goes wrong.
pub fn expected(question: Question, answer: &Answered, lengths: Lengths) -> (u32, Answer) {
    let has_places = lengths.places >= question.places();
    let refused = match answer {
        Ok(answer) if has_places && lengths.room >= answer.numbers.len() + answer.bytes.len() => {
            return (0, answer.clone());
        }
        Ok(_) => NO_ROOM.into(),
        Err(refused) => *refused,
    };
    let mut places = vec![0; if has_places { question.places() } else { 0 }];
    if let Some(last) = places.last_mut() {
        *last = u64::try_from(refused.place).unwrap();
    }
    (refused.number, Answer { places, ..Answer::default() })
}

/// A question that the library does not answer as it should.
#[derive(Debug)]
pub struct Difference {
    pub question: String,
    pub way: Way,
    pub lengths: Lengths,
    pub library: String,
    pub reference: String,
    pub fault: String,
}

impl std::fmt::Display for Difference {
    fn fmt(&self, f: &mut std::fmt::Formatter) -> std::fmt::Result {
        let Difference { question, way, lengths: Lengths { room, places, .. }, library, reference, fault } = self;
        writeln!(f, "question: {question}, way {way:?}, with room {room} and {places} places")?;
        writeln!(f, "library: {library}\nreference: {reference}")?;
        write!(f, "{fault}")
    }
}

/// The first elements of a list: enough to see what it is.
fn shown<T: std::fmt::Debug>(list: &[T]) -> String {
    let dots = if list.len() > 16 { " .." } else { "" };
    format!("{:?}{dots} ({})", &list[..list.len().min(16)], list.len())
}

fn lending(question: Question, way: Way, lengths: Lengths) -> Lending {
    let (numbers, bytes) = match question {
        Question::WriteSlip { .. } | Question::Compact => (0, lengths.room),
        Question::TrackList
        | Question::Stretch { .. }
        | Question::Edits { .. }
        | Question::Profile { .. }
        | Question::ReadSlip
        | Question::ReadAnySlip => (lengths.room, 0),
        _ => (0, 0),
    };
    let (narrow, wide) = if question.is_wide(way) { (0, numbers) } else { (numbers, 0) };
    Lending {
        numbers: Lent::new(narrow, lengths.pattern),
        wide: Lent::new(wide, lengths.pattern ^ 3),
        bytes: Lent::new(bytes, lengths.pattern ^ 1),
        places: Lent::new(lengths.places, lengths.pattern ^ 2),
    }
}

/// "Lists go to lent 32-bit numbers", but "Sample offsets and pairs are 64-bit there": what goes to each.
fn lists(question: Question, way: Way, numbers: &[u64]) -> (Vec<u32>, Vec<u64>) {
    if question.is_wide(way) {
        return (Vec::new(), numbers.to_vec());
    }
    (numbers.iter().map(|n| u32::try_from(*n).unwrap()).collect(), Vec::new())
}

/// What is wrong with the library's number and with what it wrote, if anything is.
fn fault(
    (question, way): (Question, Way),
    found: u32,
    lent: &Lending,
    number: u32,
    written: &Answer,
) -> Option<String> {
    if found != number {
        return Some(format!("the result is {found}, should be {number}"));
    }
    let (narrow, wide) = lists(question, way, &written.numbers);
    let of = |what: &str, fault: Option<String>| fault.map(|fault| format!("{what}: {fault}"));
    of("places", lent.places.fault(&written.places))
        .or_else(|| of("numbers", lent.numbers.fault(&narrow)))
        .or_else(|| of("numbers of 64 bits", lent.wide.fault(&wide)))
        .or_else(|| of("bytes", lent.bytes.fault(&written.bytes)))
}

/// Asks the library with lent memory of those lengths. Answers what was lent and the number, or how it differs from what the reference says.
pub fn compare(
    film: (&[u8], Way),
    question: Question,
    answer: &Answered,
    lengths: Lengths,
) -> Result<(u32, Lending), Box<Difference>> {
    let (bytes, way) = film;
    let (number, written) = expected(question, answer, lengths);
    let mut lent = lending(question, way, lengths);
    let found = ask(bytes, way, question, &mut lent);
    let Some(fault) = fault((question, way), found, &lent, number, &written) else {
        return Ok((number, lent));
    };
    let said = |number: u32, places: &[u64], numbers: String, bytes: &[u8]| {
        format!("{number}, places {}, numbers {numbers}, bytes {}", shown(places), shown(bytes))
    };
    let numbers = if question.is_wide(way) { shown(lent.wide.elements()) } else { shown(lent.numbers.elements()) };
    let library = said(found, lent.places.elements(), numbers, lent.bytes.elements());
    let reference = said(number, &written.places, shown(&written.numbers), &written.bytes);
    Err(Box::new(Difference { question: format!("{question:?}"), way, lengths, library, reference, fault }))
}
