//! Tracks stepped through, from the first sample, from the middle and from the last, against the reference and the sample question; and positions of
//! other films, which are safe and end.
use crate::case::{Difference, Lengths};
use crate::films::Comparison;
use crate::lent::Lent;
use crate::library::{ask, opened_step_start, step, step_start, steps, Lending};
use crate::opened::{HANDLE, NO_ROOM, OUTSIDE};
use crate::question::{kind_of, sample_places, Film, Question, Way};
use reference::maker::Random;
use reference::movie::tables::{Sample, Track};

/// As include/chaldoref.h has them.
const STEPPER: usize = 29;
const STEP_PLACES: usize = 9;
const STEPS_PLACES: usize = 1;
const SAMPLE: usize = 8;

/// The place of the number of samples in a handle.
const HANDLE_SAMPLES: usize = 14;

/// As many positions, and handles, of earlier films are kept, and as many steps are taken from a position at most.
const KEPT: usize = 8;
const MOST_STEPS: u64 = 2000;

/// As many of the samples stepped through are also put to the sample question, which judges the film each time.
const SAME_AS_SAMPLE: usize = 16;

/// A position in a film, and how many samples are left there from it on.
pub struct Kept {
    numbers: Vec<u64>,
    left: u64,
}

/// A fault in a step, told by what was called.
pub fn difference(way: Way, question: &str, fault: &str) -> Box<Difference> {
    let lengths = Lengths { room: 0, places: 0, pattern: 0 };
    let (library, reference) = (String::new(), String::new());
    Box::new(Difference { question: question.into(), way, lengths, library, reference, fault: fault.into() })
}

/// A film as it is lent, with the handle that a position is started by if there is one, and the words for a difference.
#[derive(Clone, Copy)]
struct Stepped<'a> {
    lent: &'a [u8],
    way: Way,
    id: u32,
    n: u32,
    handle: Option<&'a [u64]>,
}

impl Stepped<'_> {
    fn differs(&self, function: &str, fault: &str) -> Box<Difference> {
        difference(self.way, &format!("{function} from sample {} of track {}", self.n, self.id), fault)
    }

    /// How the start is called.
    fn start_name(&self) -> &'static str {
        if self.handle.is_some() {
            "opened_step_start"
        } else {
            start_of(self.way)
        }
    }

    /// Whether there are too few numbers for a handle.
    fn is_short(&self) -> bool {
        self.handle.is_some_and(|numbers| numbers.len() < HANDLE)
    }

    /// What is wrong with what was lent, if anything is.
    fn check(&self, function: &str, lent: &Lent<u64>, written: &[u64]) -> Result<(), Box<Difference>> {
        lent.fault(written).map_or(Ok(()), |fault| Err(self.differs(function, &fault)))
    }

    fn same<T: PartialEq + std::fmt::Debug>(&self, function: &str, found: T, right: T) -> Result<(), Box<Difference>> {
        if found == right {
            return Ok(());
        }
        Err(self.differs(function, &format!("it is {found:?}, should be {right:?}")))
    }
}

/// How a start is called that judges the film.
fn start_of(way: Way) -> &'static str {
    if way == Way::Whole {
        "step_start"
    } else {
        "moov_step_start"
    }
}

fn long(n: usize) -> u64 {
    u64::try_from(n).unwrap()
}

/// Keeps a position or a handle for the films to come.
pub fn keep<T>(kept: &mut Vec<T>, random: &mut Random, next: T) {
    if kept.len() < KEPT {
        kept.push(next);
    } else {
        kept[random.below(KEPT)] = next;
    }
}

/// Puts another number, near the one there or of any kind, into some place.
pub fn alter(numbers: &mut [u64], random: &mut Random) {
    let place = random.below(numbers.len());
    let (near, any) = (numbers[place].wrapping_add(random.one(&[1, 8, u64::MAX])), random.bits());
    numbers[place] = random.one(&[0, near, near, any >> 40, any, 1 << 31, 1 << 32, 1 << 63, u64::MAX]);
}

impl Comparison {
    /// A start, with that many numbers lent for the position; answers the position, if there is one. By the handle of another film the number
    /// is not known: it is 15 or none.
    fn start(
        &mut self,
        random: &mut Random,
        film: Stepped,
        length: usize,
        known: Option<u32>,
    ) -> Result<Option<Vec<u64>>, Box<Difference>> {
        let name = film.start_name();
        let mut stepper = Lent::new(length, random.bits());
        let number = if let Some(numbers) = film.handle {
            let mut handle = Lent::holding(numbers, random.bits());
            let number = opened_step_start(film.lent, &mut handle, film.n, &mut stepper);
            film.check(name, &handle, numbers)?;
            number
        } else {
            step_start(film.lent, film.way, film.id, film.n, &mut stepper)
        };
        let expected = match known {
            _ if film.is_short() => NO_ROOM,
            None if number == OUTSIDE => OUTSIDE,
            None | Some(0) if length < STEPPER => NO_ROOM,
            None => 0,
            Some(refusal) => refusal,
        };
        film.same(name, number, expected)?;
        self.counts.question(kind_of(name), number);
        if number == 0 {
            let position = stepper.elements()[..STEPPER].to_vec();
            film.check(name, &stepper, &position)?;
            return Ok(Some(position));
        }
        let zeros = if length < STEPPER || film.is_short() { 0 } else { STEPPER };
        film.check(name, &stepper, &vec![0; zeros])?;
        Ok(None)
    }

    /// One step, whose answer should be that sample or done. Past the last sample the position stays.
    fn one_step(
        &mut self,
        random: &mut Random,
        film: Stepped,
        position: &mut Vec<u64>,
        sample: Option<[u64; SAMPLE]>,
    ) -> Result<(), Box<Difference>> {
        let mut stepper = Lent::holding(position, random.bits());
        let mut places = Lent::new(STEP_PLACES + random.below(2), random.bits());
        film.same("step", step(film.lent, &mut stepper, &mut places), 0)?;
        self.counts.question(kind_of("step"), 0);
        let mut written = [0; STEP_PLACES];
        if let Some(sample) = sample {
            written[0] = 1;
            written[1..].copy_from_slice(&sample);
        }
        film.check("step", &places, &written)?;
        let moved = stepper.elements().to_vec();
        film.check("step", &stepper, &moved)?;
        film.same("step, whether it moves on", moved != *position, sample.is_some())?;
        *position = moved;
        Ok(())
    }

    /// A step with too few numbers or places: nothing is written.
    fn too_few(&mut self, random: &mut Random, film: Stepped, position: &[u64]) -> Result<(), Box<Difference>> {
        let fewer = [(random.below(STEPPER), STEP_PLACES), (STEPPER, random.below(STEP_PLACES))];
        for (numbers, places) in fewer {
            let mut stepper = Lent::holding(&position[..numbers], random.bits());
            let mut places = Lent::new(places, random.bits());
            film.same("step", step(film.lent, &mut stepper, &mut places), NO_ROOM)?;
            film.check("step", &stepper, &position[..numbers])?;
            film.check("step", &places, &[])?;
            self.counts.question(kind_of("step"), NO_ROOM);
        }
        for (numbers, places) in [(random.below(STEPPER), STEPS_PLACES), (STEPPER, 0)] {
            let mut stepper = Lent::holding(&position[..numbers], random.bits());
            let (mut room, mut places) = (Lent::new(3 * SAMPLE, random.bits()), Lent::new(places, random.bits()));
            film.same("steps", steps(film.lent, &mut stepper, &mut room, &mut places), NO_ROOM)?;
            film.check("steps", &stepper, &position[..numbers])?;
            film.check("steps", &room, &[])?;
            film.check("steps", &places, &[])?;
            self.counts.question(kind_of("steps"), NO_ROOM);
        }
        Ok(())
    }

    /// The next samples into a room of that length; answers how many there were.
    fn some_steps(
        &mut self,
        random: &mut Random,
        film: Stepped,
        position: &mut Vec<u64>,
        room: usize,
        expected: Option<&[Sample]>,
    ) -> Result<u64, Box<Difference>> {
        let mut stepper = Lent::holding(position, random.bits());
        let mut room = Lent::new(room, random.bits());
        let mut places = Lent::new(STEPS_PLACES, random.bits());
        film.same("steps", steps(film.lent, &mut stepper, &mut room, &mut places), 0)?;
        self.counts.question(kind_of("steps"), 0);
        let count = places.elements()[0];
        let most = long(room.len() / SAMPLE);
        if count > most {
            return Err(film.differs("steps", &format!("{count} samples in a room for {most}")));
        }
        if let Some(samples) = expected {
            let next = &samples[..samples.len().min(room.len() / SAMPLE)];
            let written: Vec<u64> = next.iter().flat_map(sample_places).collect();
            film.check("steps", &room, &written)?;
            film.check("steps", &places, &[long(next.len())])?;
        } else {
            let written = room.elements()[..SAMPLE * usize::try_from(count).unwrap()].to_vec();
            film.check("steps", &room, &written)?;
            film.check("steps", &places, &[count])?;
        }
        let moved = stepper.elements().to_vec();
        film.check("steps", &stepper, &moved)?;
        film.same("steps, whether they move on", moved != *position, count > 0)?;
        *position = moved;
        Ok(count)
    }

    /// Two steps past the last sample, by each function.
    fn done(&mut self, random: &mut Random, film: Stepped, position: &mut Vec<u64>) -> Result<(), Box<Difference>> {
        for _ in 0..2 {
            self.one_step(random, film, position, None)?;
            self.some_steps(random, film, position, 3 * SAMPLE, Some(&[]))?;
        }
        Ok(())
    }

    /// From a sample to the end: one by one, or several at once with rooms of any length.
    fn to_the_end(
        &mut self,
        random: &mut Random,
        film: Stepped,
        at: &[u64],
        samples: &[Sample],
        one_by_one: bool,
    ) -> Result<(), Box<Difference>> {
        let mut position = at.to_vec();
        let mut rest = samples;
        let most = 2 + samples.len() / 4;
        while let Some(next) = rest.first() {
            let count = if one_by_one {
                self.one_step(random, film, &mut position, Some(sample_places(next)))?;
                1
            } else {
                let room = SAMPLE * random.below(most + 1) + random.below(SAMPLE);
                self.some_steps(random, film, &mut position, room, Some(rest))?
            };
            rest = &rest[usize::try_from(count).unwrap()..];
        }
        self.done(random, film, &mut position)
    }

    /// Numbers that are too great for what they are in a position are cut to its width by each call: after one that takes no step they are not.
    fn cut(&mut self, random: &mut Random, film: Stepped, position: &[u64]) -> Result<Vec<u64>, Box<Difference>> {
        let mut stepper = Lent::holding(position, random.bits());
        let mut places = Lent::new(STEPS_PLACES, random.bits());
        film.same("steps", steps(film.lent, &mut stepper, &mut Lent::new(0, 0), &mut places), 0)?;
        film.check("steps", &places, &[0])?;
        let cut = stepper.elements().to_vec();
        film.check("steps", &stepper, &cut)?;
        Ok(cut)
    }

    /// From a position of another film, or of no film: safe, and it ends after as many steps as are left there.
    fn elsewhere(
        &mut self,
        random: &mut Random,
        film: Stepped,
        position: &[u64],
        left: u64,
    ) -> Result<(), Box<Difference>> {
        let mut position = self.cut(random, film, position)?;
        let mut taken = 0;
        while taken < left.min(MOST_STEPS) {
            let room = SAMPLE * (1 + random.below(40));
            let count = self.some_steps(random, film, &mut position, room, None)?;
            taken += count;
            if count < long(room / SAMPLE) {
                // There is no next one either.
                return self.done(random, film, &mut position);
            }
        }
        film.same("steps from elsewhere, whether there are more than are left", taken > left, false)?;
        if left <= MOST_STEPS {
            self.done(random, film, &mut position)?;
        }
        Ok(())
    }

    /// The sample question has the same answer.
    fn same_as_sample(&mut self, film: Stepped, n: u32, sample: &Sample) -> Result<(), Box<Difference>> {
        let none = || Lent::new(0, 0);
        let mut lending =
            Lending { numbers: Lent::new(0, 0), wide: none(), bytes: Lent::new(0, 0), places: Lent::new(SAMPLE, 0) };
        let number = ask(film.lent, film.way, Question::Sample { id: film.id, n }, &mut lending);
        film.same("sample", (number, lending.places.elements()), (0, &sample_places(sample)[..]))
    }

    fn track_steps(
        &mut self,
        random: &mut Random,
        lent: &[u8],
        way: Way,
        track: &Track,
    ) -> Result<(), Box<Difference>> {
        let (id, all) = (u32::try_from(track.tables.id).unwrap(), u32::try_from(track.samples.len()).unwrap());
        let at = |n| Stepped { lent, way, id, n, handle: None };
        for n in [0, all + 1, u32::MAX] {
            self.start(random, at(n), STEPPER, Some(OUTSIDE))?;
        }
        let mut starts = vec![1, all / 2 + 1, all];
        starts.dedup();
        for n in starts.into_iter().filter(|n| (1..=all).contains(n)) {
            let film = at(n);
            let (fewer, more) = (random.below(STEPPER), random.below(3));
            self.start(random, film, fewer, Some(0))?;
            let position = self.start(random, film, STEPPER + more, Some(0))?.expect("it is answered");
            let samples = &track.samples[usize::try_from(n - 1).unwrap()..];
            for one_by_one in [true, false] {
                self.to_the_end(random, film, &position, samples, one_by_one)?;
            }
            self.too_few(random, film, &position)?;
            for (number, sample) in (n..).zip(samples).take(SAME_AS_SAMPLE) {
                self.same_as_sample(film, number, sample)?;
            }
            keep(&mut self.kept, random, Kept { numbers: position, left: u64::from(all - n + 1) });
        }
        Ok(())
    }

    /// Starts by the handle of a track, by too few of its numbers, and by the handle of another film.
    pub fn opened_starts(
        &mut self,
        random: &mut Random,
        (lent, way): (&[u8], Way),
        track: &Track,
        handle: &[u64],
    ) -> Result<(), Box<Difference>> {
        let (id, all) = (u32::try_from(track.tables.id).unwrap(), u32::try_from(track.samples.len()).unwrap());
        let by = |handle, n| Stepped { lent, way, id, n, handle: Some(handle) };
        for n in [0, all + 1, u32::MAX] {
            self.start(random, by(handle, n), STEPPER, Some(OUTSIDE))?;
        }
        let (short, n) = (random.below(HANDLE), random.one(&[0, 1]));
        self.start(random, by(&handle[..short], n), STEPPER, None)?;
        if let Some(before) = (all > 0).then(|| random.below(track.samples.len())) {
            let film = by(handle, u32::try_from(before + 1).unwrap());
            let (fewer, more) = (random.below(STEPPER), random.below(3));
            self.start(random, film, fewer, Some(0))?;
            let position = self.start(random, film, STEPPER + more, Some(0))?.expect("it is answered");
            self.to_the_end(random, film, &position, &track.samples[before..], false)?;
        }
        let other = self.any_handle(random);
        let n = random.one(&[1, 2, all]);
        if let Some(position) = self.start(random, by(&other, n), STEPPER, None)? {
            let samples = other[HANDLE_SAMPLES] & u64::from(u32::MAX);
            self.elsewhere(random, by(&other, n), &position, samples - u64::from(n - 1))?;
        }
        Ok(())
    }

    /// Numbers of any kind: a position some of whose numbers are others.
    fn any_position(&self, random: &mut Random) -> Vec<u64> {
        let mut numbers = match self.kept.len() {
            0 => vec![0; STEPPER],
            kept => self.kept[random.below(kept)].numbers.clone(),
        };
        for _ in 0..1 + random.below(4) {
            alter(&mut numbers, random);
        }
        numbers
    }

    /// Every track stepped through; positions of the films before; starts that are refused.
    pub fn steps(&mut self, random: &mut Random, lent: &[u8], way: Way, film: &Film) -> Result<(), Box<Difference>> {
        let of = |id, n| Stepped { lent, way, id, n, handle: None };
        for place in 0..self.kept.len() {
            let Kept { numbers, left } = &self.kept[place];
            let (numbers, left) = (numbers.clone(), *left);
            self.elsewhere(random, of(0, 0), &numbers, left)?;
        }
        let any = self.any_position(random);
        self.elsewhere(random, of(0, 0), &any, u64::MAX)?;
        let movie = match &film.movie {
            Err(number) => {
                let fewer = random.below(STEPPER);
                self.start(random, of(1, 1), STEPPER, Some(*number))?;
                return self.start(random, of(1, 1), fewer, Some(*number)).map(drop);
            }
            Ok(movie) => movie,
        };
        let unknown = (1..).find(|id| movie.track(*id).is_err()).unwrap();
        let n = random.one(&[0, 1]);
        self.start(random, of(unknown, n), STEPPER, Some(14))?;
        for track in &movie.tracks {
            self.track_steps(random, lent, way, track)?;
        }
        if film.strict != film.number() {
            for name in [start_of(way), "step", "steps"] {
                self.counts.strict(kind_of(name), 0);
            }
        }
        Ok(())
    }
}
