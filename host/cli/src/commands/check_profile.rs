//! Whether the stored profiles of tracks are true.
use super::{of_each, part_in_words, Answer};
use crate::atoms;
use crate::failure::{worse, Failure};
use crate::json::Object;
use crate::table::{self, number, text};
use chaldoref::{Feature, FourCC, Movie, ProfileRecord, Refusal, Track, TrackId, UNIVERSAL_PART};
use std::io::{self, Write};

/// The formats of pictures and of sound.
const FORMATS: [(FourCC, FourCC); 2] = [
    (FourCC::from_bytes(*b"vide"), FourCC::from_bytes(*b"vfmt")),
    (FourCC::from_bytes(*b"soun"), FourCC::from_bytes(*b"afmt")),
];

/// A record of a stored profile, and what it is compared with if it speaks of a feature: its value, or the refusal of it.
pub(super) struct Judged {
    pub place: u32,
    pub record: ProfileRecord,
    computed: Option<Result<u32, Refusal>>,
    /// Whether it is true, and why, if it is judged. That the first untrue one is so is proved.
    pub verdict: Option<(bool, String)>,
}

impl Judged {
    /// The verdict on the record.
    pub fn in_words(&self) -> String {
        match &self.verdict {
            Some((is_true, words)) => format!("{words}: {}", if *is_true { "true" } else { "not true" }),
            None => "not judged".into(),
        }
    }
}

/// A track with its records. The library names the first at fault.
pub(super) struct Checked<'m> {
    pub track: &'m Track,
    pub fault: Option<u32>,
    pub records: Vec<Judged>,
}

/// The profile of a track, or of each, beside what is computed.
pub fn check_profile(movie: &Movie, track: Option<TrackId>, to: Answer) -> Result<(), Failure> {
    let all = of_each(movie, track, |track| checked(movie, track))?;
    let is_true = all.iter().all(|one| one.fault.is_none());
    let printed = match (to.json, track, &all[..]) {
        (true, Some(_), [one]) => to.document(|o| fields(o, one)),
        (true, ..) => to.document(|o| o.put("true", is_true)?.list("tracks", &all, fields).map(drop)),
        (false, ..) => Ok(print(&all, track.is_some(), to.out)?),
    };
    let verdict = if is_true { Ok(()) } else { Err(Failure::NotAllGood { unread: false }) };
    worse(verdict, printed)
}

pub(super) fn checked<'m>(movie: &Movie, track: &'m Track) -> Result<Checked<'m>, Failure> {
    let fault = movie.check_profile(track.id)?;
    let profile = movie.profile(track.id)?;
    let there = atoms::trak(movie.film().lent(), track.id.0).map_or(Vec::new(), |trak| trak.formats());
    let formats = of_formats(track, &profile, &there);
    let mut records: Vec<Judged> =
        (1..).zip(&profile).map(|(place, record)| judged(movie, track, place, *record, &formats)).collect();
    let first = records.iter().find(|judged| judged.verdict.as_ref().is_some_and(|(is_true, _)| !is_true));
    if first.map(|judged| judged.place) != fault {
        // The library is right: what was found here is not shown.
        records.iter_mut().for_each(|judged| judged.verdict = None);
    }
    Ok(Checked { track, fault, records })
}

/// The formats that records of the track must name, those that they name, and the first record that names one.
struct Formats {
    code: Option<FourCC>,
    unnamed: Option<FourCC>,
    there: Vec<FourCC>,
    first: Option<ProfileRecord>,
}

fn of_formats(track: &Track, profile: &[ProfileRecord], there: &[FourCC]) -> Formats {
    let code = FORMATS.iter().find(|(subtype, _)| *subtype == track.subtype).map(|(_, code)| *code);
    let naming = profile.iter().filter(|record| record.part == UNIVERSAL_PART && Some(record.code) == code);
    let first = naming.clone().next().copied();
    let unnamed = there.iter().copied().find(|format| naming.clone().all(|record| FourCC(record.value) != *format));
    Formats { code, unnamed, there: there.to_vec(), first }
}

fn judged(movie: &Movie, track: &Track, place: u32, record: ProfileRecord, formats: &Formats) -> Judged {
    let is_universal = record.part == UNIVERSAL_PART;
    let is_compared = is_universal && Feature::from_code(record.code).is_some();
    let computed = is_compared.then(|| movie.feature(track.id, record.code));
    let verdict = match computed {
        Some(computed) => Some(of_feature(record, computed)),
        None if is_universal && Some(record.code) == formats.code => Some(of_format(record, formats)),
        None => None,
    };
    Judged { place, record, computed, verdict }
}

fn of_feature(ProfileRecord { code, value, .. }: ProfileRecord, computed: Result<u32, Refusal>) -> (bool, String) {
    let claimed = shown(code, value);
    match computed {
        Ok(least) => {
            let halves = |n: u32| [n >> 16, n & 0xffff];
            let is_true = match Feature::from_code(code) {
                Some(Feature::GreatestPicture) => {
                    halves(least).iter().zip(halves(value)).all(|(least, half)| *least <= half)
                }
                _ => least <= value,
            };
            (is_true, format!("claims at most {claimed}, computed {}", shown(code, least)))
        }
        Err(_) => (false, format!("claims at most {claimed}, and none can be computed of this track")),
    }
}

fn of_format(record: ProfileRecord, formats: &Formats) -> (bool, String) {
    let format = FourCC(record.value);
    match formats.unnamed {
        _ if !formats.there.contains(&format) => (false, format!("names {format}, which no description has")),
        Some(unnamed) if formats.first == Some(record) => {
            (false, format!("{unnamed}, which a description has, is named by no record"))
        }
        _ => (true, format!("names {format}, which a description has")),
    }
}

fn fields(o: &mut Object, one: &Checked) -> io::Result<()> {
    o.put("track", one.track.id.0)?.put("true", one.fault.is_none())?.put("fault", one.fault)?;
    o.list("records", &one.records, |o, judged| {
        let record = &judged.record;
        o.put("part", record.part)?.put("code", record.code.to_string())?.put("value", record.value)?;
        o.put("computed", judged.computed.and_then(Result::ok))?;
        o.put("verdict", judged.verdict.as_ref().map(|(is_true, _)| *is_true)).map(drop)
    })?;
    Ok(())
}

fn print(all: &[Checked], is_one: bool, out: &mut dyn Write) -> io::Result<()> {
    let with_profile: Vec<&Checked> = all.iter().filter(|one| !one.records.is_empty()).collect();
    if with_profile.is_empty() && !is_one {
        return writeln!(out, "no track of the film has a profile, so that none is untrue");
    }
    for one in all {
        match &one.records[..] {
            [] if is_one => writeln!(out, "track {} has no profile, and none is untrue", one.track.id)?,
            [] => (),
            _ => print_one(one, out)?,
        }
    }
    Ok(())
}

fn print_one(one: &Checked, out: &mut dyn Write) -> io::Result<()> {
    let columns = [number("record"), text("part"), text("code"), number("value"), text("verdict")];
    let row = |judged: &Judged| {
        let record = &judged.record;
        let verdict = judged.in_words();
        let part = part_in_words(record.part);
        [judged.place.to_string(), part, record.code.to_string(), record.value.to_string(), verdict]
    };
    table::write(out, columns, &one.records, row)?;
    writeln!(out, "{}", sentence(one))
}

/// The verdict on a profile.
pub(super) fn sentence(one: &Checked) -> String {
    let id = one.track.id;
    match one.fault {
        None => format!("the profile of track {id} is true"),
        Some(place) => format!("the profile of track {id} is not true: record {place} is the first at fault"),
    }
}

/// A feature's value; of the greatest picture its two halves, each of which is compared.
fn shown(code: FourCC, value: u32) -> String {
    match Feature::from_code(code) {
        Some(Feature::GreatestPicture) => format!("{} x {} pixels", value >> 16, value & 0xffff),
        _ => value.to_string(),
    }
}
