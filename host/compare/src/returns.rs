//! The film return: every film filed into returns that are empty, nearly full, or of any numbers; and such returns joined.
use crate::case::Difference;
use crate::films::Comparison;
use crate::lent::Lent;
use crate::library::{film_return, join_returns};
use crate::opened::{check, check_number, NO_ROOM};
use crate::question::{kind_of, Film, Way};
use reference::film_return::FilmReturn;
use reference::maker::Random;

/// As include/chaldoref.h has them.
const NUMBERS: usize = 83;
const COUNT: usize = 18;
const SCALES: usize = 19;
const MOST_SCALES: usize = 32;
const UNITS: usize = SCALES + MOST_SCALES;

/// How the function is called.
fn name_of(way: Way) -> &'static str {
    if way == Way::Whole {
        "film_return"
    } else {
        "moov_film_return"
    }
}

/// A total: none, few, or one that the film may take past the limit.
fn total(random: &mut Random) -> u64 {
    let few = random.bits() >> 40;
    let below = u64::MAX - (random.bits() >> random.one(&[52, 60, 63]));
    if random.once_in(24) {
        random.one(&[u64::MAX, below])
    } else {
        random.one(&[0, few])
    }
}

/// The numbers of some return. Scales are the film's own, at times, and others; past the scales held stand any numbers.
fn numbers(random: &mut Random, film: &Film) -> Vec<u64> {
    let own: Vec<u64> = film.movie.iter().flat_map(|movie| &movie.tracks).map(|track| track.tables.scale).collect();
    let held = random.one(&[0, 1, 5, MOST_SCALES - 1, MOST_SCALES, MOST_SCALES]);
    let mut all: Vec<u64> = (0..NUMBERS).map(|_| total(random)).collect();
    all[COUNT] = if random.once_in(8) { random.one(&[33, 1 << 32, u64::MAX]) } else { u64::try_from(held).unwrap() };
    for place in 0..MOST_SCALES {
        let other = 1_000_000 + u64::try_from(place).unwrap();
        let scale = if own.is_empty() || random.once_in(2) { other } else { random.one(&own) };
        all[SCALES + place] = if random.once_in(16) { scale + (1 << 32) } else { scale };
    }
    all
}

/// The same as the reference has it: a scale is the lowest 32 bits, and a number of scales above the most counts as that.
fn of_numbers(all: &[u64]) -> FilmReturn {
    let held = usize::try_from(all[COUNT]).map_or(MOST_SCALES, |count| count.min(MOST_SCALES));
    FilmReturn {
        accepted: all[0].into(),
        refused: std::array::from_fn(|place| all[1 + place].into()),
        tracks: all[15].into(),
        samples: all[16].into(),
        bytes: all[17].into(),
        scales: (0..held).map(|place| (all[SCALES + place] & 0xffff_ffff, all[UNITS + place].into())).collect(),
    }
}

/// The numbers of a return that goes on from others. A scale is the lowest 32 bits; a number of scales above the most stays, and so do the places
/// past the scales held.
fn numbers_of(all: &FilmReturn, before: &[u64]) -> Vec<u64> {
    let number = |total: u128| u64::try_from(total).unwrap();
    let mut numbers = before.to_vec();
    numbers[0] = number(all.accepted);
    (0..all.refused.len()).for_each(|place| numbers[1 + place] = number(all.refused[place]));
    [numbers[15], numbers[16], numbers[17]] = [all.tracks, all.samples, all.bytes].map(number);
    if before[COUNT] <= u64::try_from(MOST_SCALES).unwrap() {
        numbers[COUNT] = u64::try_from(all.scales.len()).unwrap();
    }
    numbers[SCALES..UNITS].iter_mut().for_each(|scale| *scale &= 0xffff_ffff);
    for (place, (scale, total)) in all.scales.iter().enumerate() {
        (numbers[SCALES + place], numbers[UNITS + place]) = (*scale, number(*total));
    }
    numbers
}

impl Comparison {
    /// Joins a return to another; too few numbers in either are refused 16, and with a refusal all stay.
    fn join_into(&mut self, random: &mut Random, before: &[u64], more: &[u64]) -> Result<(), Box<Difference>> {
        let (way, name) = (Way::Whole, "join_returns");
        let mut totals = Lent::holding(before, random.bits());
        let others = Lent::holding(more, random.bits());
        let number = join_returns(&others, &mut totals);
        check(way, name, &others, more)?;
        let (mut refusal, mut after) = (NO_ROOM, before.to_vec());
        if before.len().min(more.len()) >= NUMBERS {
            let mut both = of_numbers(before);
            refusal = both.join(&of_numbers(more));
            if refusal == 0 {
                after = numbers_of(&both, before);
            }
        }
        check_number(way, name, number, refusal)?;
        self.counts.question(kind_of(name), number);
        check(way, name, &totals, &after)
    }

    /// Files a film into a return; too few numbers are refused 16, and stay.
    fn file_into(
        &mut self,
        random: &mut Random,
        (lent, way): (&[u8], Way),
        film: &Film,
        before: &[u64],
    ) -> Result<(), Box<Difference>> {
        let name = name_of(way);
        let mut totals = Lent::holding(before, random.bits());
        let number = film_return(lent, way, &mut totals);
        let after = totals.elements().to_vec();
        check(way, name, &totals, &after)?;
        if before.len() < NUMBERS {
            check_number(way, name, number, NO_ROOM)?;
            self.counts.question(kind_of(name), number);
            return check(way, name, &totals, before);
        }
        let mut expected = of_numbers(before);
        check_number(way, name, number, expected.file_read(&film.movie))?;
        self.counts.question(kind_of(name), number);
        if number != 0 {
            return check(way, name, &totals, before);
        }
        check(way, name, &totals, &numbers_of(&expected, before))
    }

    /// Files a film into an empty return, into some others, and with too few numbers.
    pub fn returns(&mut self, random: &mut Random, lent: &[u8], way: Way, film: &Film) -> Result<(), Box<Difference>> {
        self.file_into(random, (lent, way), film, &[0; NUMBERS])?;
        for _ in 0..3 {
            let mut some = numbers(random, film);
            some.extend((0..random.below(3)).map(|_| 7));
            self.file_into(random, (lent, way), film, &some)?;
        }
        let fewer = numbers(random, film)[..random.below(NUMBERS)].to_vec();
        self.file_into(random, (lent, way), film, &fewer)?;
        for _ in 0..3 {
            let (before, more) = (numbers(random, film), numbers(random, film));
            self.join_into(random, &before, &more)?;
        }
        let some = numbers(random, film);
        self.join_into(random, &some, &fewer)?;
        self.join_into(random, &fewer, &some)?;
        if film.strict != film.number() {
            self.counts.strict(kind_of(name_of(way)), 0);
        }
        Ok(())
    }
}
