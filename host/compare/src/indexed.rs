//! Indices of opened tracks: filled into rooms of any length, and the lookups by them.
use crate::case::Difference;
use crate::choose::lookups;
use crate::films::Comparison;
use crate::lent::Lent;
use crate::library::fill_index;
use crate::opened::{any_of, check, check_number, By, HANDLE, NO_ROOM, ROUNDS};
use crate::question::{kind_of, Film, Question, Way};
use crate::steps::{difference, keep};
use reference::maker::Random;
use reference::movie::tables::Track;

/// As include/chaldoref.h has them.
const CHECKPOINT_SAMPLES: usize = 64;
const CHECKPOINT_NUMBERS: usize = 6;

/// So many checkpoints of a track are looked up around at most.
const CHECKPOINTS: usize = 8;

/// The samples just before a checkpoint and just after, by their numbers and by the times at which they begin.
fn around_checkpoint(random: &mut Random, track: &Track) -> [Question; 4] {
    let id = u32::try_from(track.tables.id).unwrap();
    let last = (track.samples.len() - 1) / CHECKPOINT_SAMPLES;
    let before = CHECKPOINT_SAMPLES * (1 + random.below(last));
    let number = |n: usize| Question::Sample { id, n: u32::try_from(n).unwrap() };
    let time =
        |n: usize| Question::SampleAt { id, t: u32::try_from(track.samples[n - 1].decode_time).unwrap_or(u32::MAX) };
    [number(before), number(before + 1), time(before), time(before + 1)]
}

impl Comparison {
    /// Fills an index, with so many numbers lent for it and so many places; answers it, if it is filled. `needed` is known of a handle of the film.
    fn fill(
        &mut self,
        random: &mut Random,
        (lent, way): (&[u8], Way),
        numbers: &[u64],
        (length, places): (usize, usize),
        needed: Option<usize>,
    ) -> Result<Option<Vec<u64>>, Box<Difference>> {
        let mut handle = Lent::holding(numbers, random.bits());
        let (mut index, mut places) = (Lent::new(length, random.bits()), Lent::new(places, random.bits()));
        let number = fill_index(lent, &mut handle, &mut index, &mut places);
        let asked = format!("index into {length} numbers");
        let is_asked = numbers.len() >= HANDLE && places.len() > 0;
        // Of another film the first place says how many numbers there are.
        let found = if number == 0 { places.elements().first().copied().unwrap_or(0) } else { u64::MAX };
        let needed = needed.unwrap_or(usize::try_from(found).unwrap_or(usize::MAX));
        let is_filled = is_asked && length >= needed;
        check_number(way, &asked, number, if is_filled { 0 } else { NO_ROOM })?;
        self.counts.question(kind_of("index"), number);
        check(way, &asked, &handle, numbers)?;
        let filled = index.elements()[..if is_filled { needed } else { 0 }].to_vec();
        check(way, &asked, &index, &filled)?;
        let count = [if is_filled { u64::try_from(needed).unwrap() } else { 0 }];
        check(way, &asked, &places, &count[..usize::from(is_asked)])?;
        Ok(is_filled.then_some(filled))
    }

    /// The index of a track, filled into rooms of any length, and by handles that are too short or of other films.
    fn filled(
        &mut self,
        random: &mut Random,
        (lent, way): (&[u8], Way),
        handle: &[u64],
        needed: usize,
    ) -> Result<Vec<u64>, Box<Difference>> {
        let index = self.fill(random, (lent, way), handle, (needed, 1), Some(needed))?.expect("it is filled");
        let (longer, places) = (needed + 1 + random.below(9), 1 + random.below(2));
        let again = self.fill(random, (lent, way), handle, (longer, places), Some(needed))?;
        if again.as_ref() != Some(&index) {
            return Err(difference(way, "index", "it is another in a longer room"));
        }
        let (shorter, fewer) = (random.below(needed + 1), random.below(HANDLE));
        for (numbers, length, places) in [(handle, shorter, 1), (handle, needed, 0), (&handle[..fewer], needed, 1)] {
            self.fill(random, (lent, way), numbers, (length, places), Some(needed))?;
        }
        let other = self.any_handle(random);
        let length = random.one(&[0, CHECKPOINT_NUMBERS, 4 * CHECKPOINT_NUMBERS, needed]);
        self.fill(random, (lent, way), &other, (length, 1), None)?;
        Ok(index)
    }

    /// A lookup by an index of the film, also one that is too long or too short, and by handles and indices of other films.
    fn look_up(
        &mut self,
        random: &mut Random,
        (lent, way): (&[u8], Way),
        (handle, index): (&[u64], &[u64]),
        question: Question,
        film: &Film,
    ) -> Result<(), Box<Difference>> {
        let answer = question.answer(film);
        let (longer, fewer) = ([index, &[random.bits()]].concat(), random.below(HANDLE));
        for (handle, index) in [(handle, index), (handle, &longer), (&handle[..fewer], index)] {
            self.ask_by(random, (lent, way), By::index(handle, index), question, Some(&answer))?;
        }
        if let Some(last) = index.len().checked_sub(1) {
            let shorter = By::index(handle, &index[..random.one(&[0, last / 2, last])]);
            self.ask_by(random, (lent, way), shorter, question, Some(&Err(NO_ROOM.into())))?;
        }
        let (other, foreign) = (self.any_handle(random), any_of(&self.indices, random, index.len()));
        for (handle, index) in [(handle, &foreign[..]), (&other, index), (&other, &foreign)] {
            self.ask_by(random, (lent, way), By::index(handle, index), question, None)?;
        }
        Ok(())
    }

    /// The index of a track and the lookups by it.
    pub fn indexed(
        &mut self,
        random: &mut Random,
        (lent, way): (&[u8], Way),
        track: &Track,
        handle: &[u64],
        film: &Film,
    ) -> Result<(), Box<Difference>> {
        let needed = CHECKPOINT_NUMBERS * track.samples.len().div_ceil(CHECKPOINT_SAMPLES);
        let index = self.filled(random, (lent, way), handle, needed)?;
        for _ in 0..ROUNDS {
            for question in lookups(random, track) {
                self.look_up(random, (lent, way), (handle, &index), question, film)?;
            }
        }
        for _ in 0..CHECKPOINTS.min(track.samples.len().saturating_sub(1) / CHECKPOINT_SAMPLES) {
            for question in around_checkpoint(random, track) {
                self.ask_by(random, (lent, way), By::index(handle, &index), question, Some(&question.answer(film)))?;
            }
        }
        keep(&mut self.indices, random, index);
        Ok(())
    }
}
