//! Everything that is compared, and the words for a difference.
use crate::big;
use crate::case::Difference;
use crate::counts::Counts;
use crate::films::{Bytes, Comparison};
use crate::options::Options;
use crate::question::Way;
use chaldoref::{Moov, MAX_FILE_BYTES};
use reference::maker::{self, alone, claims, limits, quay, slips, Random};
use reference::movie::MoovAlone;
use reference::slip::MOST_PAIRS;
use std::panic::{catch_unwind, AssertUnwindSafe};

/// How often every question is put to an accepted film: one that is made, one at the limits, one of 2 GiB, one from a file.
const ROUNDS: usize = 5;
const LIMIT_ROUNDS: usize = 4;
const BIG_ROUNDS: usize = 50;
const FILE_ROUNDS: usize = 200;

/// After as many films come one whose tracks have profiles that are true, or nearly, and one that keeps the quay film profile, or nearly.
const JUDGED_EVERY: u64 = 8;

/// A film of more bytes is not written down where there is a difference.
const MOST_KEPT: usize = 1 << 28;

/// Seeds of their own for the films that are not made at random, so that they don't share the numbers of those.
const LIMITS_SEED: u64 = 0x6c69_6d69_7473;
const OTHERS_SEED: u64 = 0x6f74_6865_7273;

pub struct Run {
    seed: u64,
    comparison: Comparison,
}

type Compared = Result<(), Box<Difference>>;

impl Run {
    pub fn new(seed: u64) -> Run {
        Run { seed, comparison: Comparison::default() }
    }

    pub fn counts(&self) -> &Counts {
        &self.comparison.counts
    }

    /// Compares on a film or slip of that name. What differs, also a panic of the reference, comes back in words, and the bytes are written down.
    fn on(&mut self, name: &str, bytes: &[u8], work: impl FnOnce(&mut Comparison) -> Compared) -> Result<(), String> {
        let compared = catch_unwind(AssertUnwindSafe(|| work(&mut self.comparison)));
        let fault = match compared {
            Ok(Ok(())) => return Ok(()),
            Ok(Err(difference)) => difference.to_string(),
            Err(_) => "the reference panicked".to_string(),
        };
        Err(format!("DIFFERENCE: seed {}, {name}\n{fault}\n{}", self.seed, keep(bytes)))
    }

    /// A whole film, and its moov alone if it has one.
    fn both_ways(&mut self, random: &mut Random, name: &str, film: &[u8], rounds: usize) -> Result<(), String> {
        let bytes = Bytes::copy(random, film);
        self.on(name, film, |all| all.film(random, &bytes, Way::Whole, rounds))?;
        alone::moov_of(film).map_or(Ok(()), |moov| self.moov(random, &format!("the moov of {name}"), moov, rounds))
    }

    fn moov(&mut self, random: &mut Random, name: &str, film: MoovAlone<&[u8]>, rounds: usize) -> Result<(), String> {
        let (bytes, way) = (Bytes::copy(random, film.moov), Way::Moov(film.length));
        self.on(name, film.moov, |all| all.film(random, &bytes, way, rounds))
    }

    /// The film of an index, at times one with profiles and one near the quay film profile, a moov of a film that is too long to be made, a slip of each form, and the same slips damaged.
    fn made(&mut self, index: u64) -> Result<(), String> {
        let mut random = Random::of(self.seed, index);
        let film = maker::film(&mut random);
        self.both_ways(&mut random, &format!("film {index}"), &film, ROUNDS)?;
        if index % JUDGED_EVERY == 0 {
            let (claiming, near) = (claims::claiming(&mut random), quay::quay(&mut random));
            self.both_ways(&mut random, &format!("film {index} with profiles"), &claiming, ROUNDS)?;
            self.both_ways(&mut random, &format!("film {index} by the quay's rules"), &near, ROUNDS)?;
            let fragmented = maker::fragmented(&mut random);
            self.both_ways(&mut random, &format!("film {index} with fragments"), &fragmented, ROUNDS)?;
        }
        let MoovAlone { moov, length } = alone::film(&mut random);
        let film = MoovAlone { moov: &moov[..], length };
        self.moov(&mut random, &format!("moov {index} of {length} bytes"), film, ROUNDS)?;
        for make in [slips::slip, slips::wide_slip] {
            let slip = make(&mut random);
            self.on(&format!("slip {index}"), &slip, |all| all.slip(&mut random, &slip).map(drop))?;
            let damaged = slips::damaged(&mut random, &slip);
            self.on(&format!("damaged slip {index}"), &damaged, |all| all.slip(&mut random, &damaged).map(drop))?;
        }
        Ok(())
    }

    /// The films and slips at the limits.
    fn limits(&mut self) -> Result<(), String> {
        let mut random = Random::new(self.seed ^ LIMITS_SEED);
        for which in 0..limits::FILMS {
            eprintln!("limit {which}");
            let film = limits::limit(&mut random, which);
            self.both_ways(&mut random, &format!("limit {which}"), &film, LIMIT_ROUNDS)?;
        }
        let most = u32::try_from(MOST_PAIRS).unwrap();
        for pairs in [most, most + 1] {
            let slip = slips::slip_of(&mut random, pairs);
            self.on(&format!("slip of {pairs} pairs"), &slip, |all| all.slip(&mut random, &slip).map(drop))?;
        }
        Ok(())
    }

    /// The films of 2 GiB.
    fn big(&mut self) -> Result<(), String> {
        let mut random = Random::new(self.seed ^ OTHERS_SEED);
        for film in big::films() {
            eprintln!("{}", film.name);
            let mapped = film.mapped().map_err(|error| format!("{}: {error}", film.name))?;
            let bytes = Bytes::ReadOnly(mapped.bytes());
            self.on(film.name, mapped.bytes(), |all| all.film(&mut random, &bytes, Way::Whole, BIG_ROUNDS))?;
            let way = Way::Moov(1 << 31);
            self.on(film.name, mapped.bytes(), |all| all.film(&mut random, &bytes, way, 1))?;
            if let Some(moov) = alone::moov_of(mapped.bytes()) {
                self.moov(&mut random, &format!("the moov of {}", film.name), moov, BIG_ROUNDS)?;
            }
        }
        Ok(())
    }

    /// A film that is too long to be lent whole is asked by its moov alone.
    fn file(&mut self, name: &str) -> Result<(), String> {
        let read = |error: &dyn std::fmt::Display| format!("{name}: {error}");
        let file = std::fs::File::open(name).map_err(|error| read(&error))?;
        if file.metadata().map_err(|error| read(&error))?.len() > MAX_FILE_BYTES {
            let Moov { bytes, length, .. } = Moov::read(file).map_err(|error| read(&error))?;
            let film = MoovAlone { moov: &bytes[..], length };
            eprintln!("the moov of {name}: {}", reference::movie::refusal(&film));
            return self.moov(
                &mut Random::new(self.seed ^ OTHERS_SEED),
                &format!("the moov of {name}"),
                film,
                FILE_ROUNDS,
            );
        }
        let film = std::fs::read(name).map_err(|error| read(&error))?;
        eprintln!("{name}: {}", reference::movie::refusal(&film));
        let mut random = Random::new(self.seed ^ OTHERS_SEED);
        self.both_ways(&mut random, name, &film, FILE_ROUNDS)
    }

    /// All that the options ask for, small films first, or the words for the first difference.
    pub fn all(&mut self, options: &Options) -> Result<(), String> {
        if let Some(index) = options.film {
            return self.made(index);
        }
        for name in &options.files {
            self.file(name)?;
        }
        let Some(films) = options.films else {
            return Ok(());
        };
        for index in 0..films {
            if index % 10_000 == 0 {
                eprintln!("film {index} of {films}");
            }
            self.made(index)?;
        }
        self.limits()?;
        self.big()
    }
}

/// Writes down the film or slip at fault, and says where.
fn keep(bytes: &[u8]) -> String {
    let path = concat!(env!("CARGO_MANIFEST_DIR"), "/../target/compare-failure.mov");
    if bytes.len() > MOST_KEPT {
        return format!("its {} bytes are not written down", bytes.len());
    }
    match std::fs::write(path, bytes) {
        Ok(()) => format!("its bytes are in {path}"),
        Err(error) => format!("its bytes could not be written to {path}: {error}"),
    }
}
