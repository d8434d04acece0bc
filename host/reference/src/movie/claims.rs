//! Document 02, "Is the camera's own profile true?": what each record of a track's stored profile claims, against the track.
use super::features::{computed, is_sound, is_video};
use super::questions::answered;
use super::refusals::read;
use super::tables::{Movie, Record, Track};

/// "each universal record (part-ID 0x20202020)"
const UNIVERSAL: u64 = 0x2020_2020;

/// The code of a universal record as its four characters, nothing for "Other records".
fn universal_code(record: &Record) -> Option<[u8; 4]> {
    (record.part_id == UNIVERSAL).then(|| u32::try_from(record.code).unwrap().to_be_bytes())
}

/// "tvsz at least in each half"
fn at_least_in_each_half(value: u64, feature: u64) -> bool {
    value / 65536 >= feature / 65536 && value % 65536 >= feature % 65536
}

/// "each universal record ... with code avvb, avab, mvbr, mabr or vfps must be at least the computed feature"; "A record of the first six codes whose
/// feature is refused 18 is at fault."
fn feature_fault(record: &Record, track: &Track, movie_scale: u64) -> bool {
    let Some(code) = universal_code(record) else {
        return false;
    };
    let feature = || computed(track, movie_scale, u32::from_be_bytes(code)).map(u64::from);
    match &code {
        b"avvb" | b"avab" | b"mvbr" | b"mabr" | b"vfps" => feature().is_none_or(|feature| record.value < feature),
        b"tvsz" => feature().is_none_or(|feature| !at_least_in_each_half(record.value, feature)),
        _ => false,
    }
}

/// "universal 'vfmt' (vide) or 'afmt' (soun) record"; "these two in a track of another subtype, are passed over"
fn names_format(record: &Record, track: &Track) -> bool {
    match universal_code(record).as_ref() {
        Some(b"vfmt") => is_video(track),
        Some(b"afmt") => is_sound(track),
        _ => false,
    }
}

/// "the values must be exactly the formats in stsd, in any order, repeats allowed"; "a missing format is charged to the first vfmt or afmt record not
/// passed over"
fn format_fault(records: &[Record], place: usize, track: &Track) -> bool {
    if !names_format(&records[place], track) {
        return false;
    }
    let formats = &track.tables.formats;
    let named = || records.iter().filter(|record| names_format(record, track)).map(|record| record.value);
    let is_first = !records[..place].iter().any(|record| names_format(record, track));
    let one_is_missing = formats.iter().any(|format| !named().any(|value| value == *format));
    !formats.contains(&records[place].value) || (is_first && one_is_missing)
}

impl Movie {
    /// "The answer is yes, also without a profile, or the first record at fault by its place, from 1, in the stored profile": nothing is the yes.
    pub fn profile_fault(&self, id: u32) -> Result<Option<u64>, u32> {
        let track = self.track(id)?;
        let records = self.stored_profile(id)?;
        let at_fault =
            |place: &usize| feature_fault(&records[*place], track, self.scale) || format_fault(&records, *place, track);
        let first = (0..records.len()).find(at_fault);
        Ok(first.map(|place| u64::try_from(place).unwrap() + 1))
    }
}

/// The place of the first record at fault, 0 for the yes. "Refusals: the file's and 14."
pub fn profile_fault(file: &[u8], id: u32) -> (u32, u64) {
    answered(read(file).and_then(|movie| Ok(movie.profile_fault(id)?.unwrap_or(0))))
}
