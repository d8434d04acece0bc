//! "Questions": each takes the file and, except the track list, a track ID.
//!
//! "Order: file refusal, 14, 15 or 18, then 16". The questions of a `Movie` answer a number or what is asked. The public functions below
//! take the film, lent in either way, and answer the number, 0 for none, and the numbers asked: "Numbers returned with a refusal are all 0 and
//! lent buffers keep their contents. An accepted answer fills the first places and leaves the rest."
use super::features::{computed, peak_of};
use super::lent::Film;
use super::refusals::{in_media_scale, read, read_strictly};
use super::tables::{Edit, Movie, Record, Sample, Track};
use crate::slip::{slip_writing, Head};
use std::fmt::Debug;

pub const NO_TRACK: u32 = 14;
pub const OUTSIDE: u32 = 15;
pub const NO_ROOM: u32 = 16;
pub const NOT_COMPUTED: u32 = 18;

/// The answer to "Movie time t to media time".
#[derive(Clone, Copy, Debug, PartialEq)]
pub enum MediaTime {
    At(u64),
    NothingShown,
    Refused(u32),
}

/// The answer to "Stretch", the pairs in chunk order.
#[derive(Clone, Debug, PartialEq)]
pub struct Stretch {
    pub pairs: Vec<(u64, u64)>,
    pub bytes: u64,
}

/// "the position, from 1, of the entry that holds the answered sample", which is sample n
fn entry_of(stts: &[(u64, u64)], n: u64) -> u64 {
    let mut samples = 0;
    let mut position = 0;
    while samples < n {
        samples += stts[position].0;
        position += 1;
    }
    u64::try_from(position).unwrap()
}

impl Movie {
    /// "no track has that ID"
    pub fn track(&self, id: u32) -> Result<&Track, u32> {
        self.tracks.iter().find(|track| track.tables.id == u64::from(id)).ok_or(NO_TRACK)
    }

    /// "for each trak in file order, ID, subtype, media time scale ..., total, N, C, edits (0 without a list)"; "The stored duration comes last for each
    /// track in the track list"
    pub fn track_list(&self) -> Vec<[u64; 8]> {
        let long = |n: usize| u64::try_from(n).unwrap();
        let mut list = Vec::new();
        for track in &self.tracks {
            let tables = &track.tables;
            let edits = tables.edits.as_ref().map_or(0, |edits| edits.len());
            let (n, c) = (tables.sizes.len(), tables.chunk_offsets.len());
            let stored = tables.mdhd_duration;
            list.push([tables.id, tables.subtype, tables.scale, track.total, long(n), long(c), long(edits), stored]);
        }
        list
    }

    /// Duration, media time and rate of each entry of a track's edit list, in order; none without a list.
    pub fn edit_list(&self, id: u32) -> Result<Vec<Edit>, u32> {
        Ok(self.track(id)?.tables.edits.clone().unwrap_or_default())
    }

    /// "the sample number is not in 1 to N"
    pub fn sample(&self, id: u32, n: u32) -> Result<Sample, u32> {
        let samples = &self.track(id)?.samples;
        let n = usize::try_from(n).unwrap();
        if n < 1 || n > samples.len() {
            return Err(OUTSIDE);
        }
        Ok(samples[n - 1])
    }

    /// "the n with decode time ≤ t < decode time plus duration", and document 02's "how many stts entries it took in"
    pub fn sample_at(&self, id: u32, t: u64) -> Result<(u64, u64), u32> {
        let track = self.track(id)?;
        for (i, sample) in track.samples.iter().enumerate() {
            if sample.decode_time <= t && t < sample.decode_time + sample.duration {
                let n = u64::try_from(i).unwrap() + 1;
                return Ok((n, entry_of(&track.tables.stts, n)));
            }
        }
        Err(OUTSIDE)
    }

    /// The media time at movie time t, or nothing where nothing is shown.
    pub fn media_time(&self, id: u32, t: u64) -> Result<Option<u64>, u32> {
        let track = self.track(id)?;
        let scaled = |x: u64| u64::try_from(in_media_scale(x, track.tables.scale, self.scale)).unwrap();
        let Some(edits) = &track.tables.edits else {
            // "Without an edit list the media starts at 0."; "without a list, where the media time isn't below the media total"
            let media_time = scaled(t);
            return if media_time < track.total { Ok(Some(media_time)) } else { Err(OUTSIDE) };
        };
        // "Entries follow one another from movie time 0."
        let mut start = 0;
        for edit in edits {
            if start <= t && t < start + edit.duration {
                // "nothing shown if its media time is -1, else that plus floor((t-S) × media scale / movie scale)"
                return Ok(match u64::try_from(edit.media_time) {
                    Ok(media_time) => Some(media_time + scaled(t - start)),
                    Err(_) => None,
                });
            }
            start += edit.duration;
        }
        // "Refused 15 at or past the last entry's end"
        Err(OUTSIDE)
    }

    /// "from a to b in media time, 0 ≤ a < b ≤ total: samples from the one at a to the one at b-1, all numbers between included. One pair
    /// (offset, length) for each chunk touched, in chunk order, with the number of pairs and the total of bytes."
    pub fn stretch(&self, id: u32, a: u64, b: u64) -> Result<Stretch, u32> {
        let track = self.track(id)?;
        if a >= b || b > track.total {
            return Err(OUTSIDE);
        }
        let (first, _) = self.sample_at(id, a)?;
        let (last, _) = self.sample_at(id, b - 1)?;
        let included = &track.samples[usize::try_from(first - 1).unwrap()..usize::try_from(last).unwrap()];
        let mut pairs: Vec<(u64, u64)> = Vec::new();
        let mut chunk = 0;
        for sample in included {
            if sample.chunk != chunk {
                pairs.push((sample.offset, 0));
                chunk = sample.chunk;
            }
            pairs.last_mut().unwrap().1 += sample.size;
        }
        Ok(Stretch { pairs, bytes: included.iter().map(|sample| sample.size).sum() })
    }

    /// "part-ID, code and value of each record kept, in order; ID 0 asks for the movie's own; no profile gives none"
    pub fn stored_profile(&self, id: u32) -> Result<Vec<Record>, u32> {
        let profile = if id == 0 { &self.profile } else { &self.track(id)?.tables.profile };
        // "Records with code 0 are passed over"
        Ok(profile.iter().flatten().filter(|record| record.code != 0).copied().collect())
    }

    /// "the feature cannot be computed"
    pub fn feature(&self, id: u32, code: u32) -> Result<u32, u32> {
        computed(self.track(id)?, self.scale, code).ok_or(NOT_COMPUTED)
    }

    /// Which samples give 'mvbr' or 'mabr' its value: the number of the first, and how many they are. Refused as the feature is, and for other codes.
    pub fn peak(&self, id: u32, code: u32) -> Result<(u64, u64), u32> {
        let peak = peak_of(self.track(id)?, code).ok_or(NOT_COMPUTED)?;
        Ok((peak.first, peak.samples))
    }

    /// "1 (the form), track ID, scale, a, b, number of pairs, pairs"; "Slip writing takes a stretch question." Asked of a movie that was read strictly.
    pub fn slip(&self, id: u32, a: u32, b: u32) -> Result<Vec<u8>, u32> {
        let (a, b) = (u64::from(a), u64::from(b));
        let pairs = self.stretch(id, a, b)?.pairs;
        let scale = self.track(id)?.tables.scale;
        let count = u64::try_from(pairs.len()).unwrap();
        Ok(slip_writing(Head { id: u64::from(id), scale, a, b, pairs: count }, &pairs))
    }
}

/// A list in the first places of the lent numbers. "the lent room is shorter than the answer"
fn fill<N: TryFrom<u64, Error: Debug>>(room: &mut [N], list: &[u64]) -> Result<(), u32> {
    if room.len() < list.len() {
        return Err(NO_ROOM);
    }
    for (place, n) in room.iter_mut().zip(list) {
        *place = N::try_from(*n).unwrap();
    }
    Ok(())
}

/// The number, and zeros with it where something is refused.
pub fn answered<T: Default>(answer: Result<T, u32>) -> (u32, T) {
    match answer {
        Ok(numbers) => (0, numbers),
        Err(number) => (number, T::default()),
    }
}

/// The count of tracks.
pub fn track_list(film: &(impl Film + ?Sized), room: &mut [u32]) -> (u32, u64) {
    answered(read(film).and_then(|movie| {
        let list = movie.track_list();
        fill(room, &list.concat())?;
        Ok(u64::try_from(list.len()).unwrap())
    }))
}

pub fn sample(film: &(impl Film + ?Sized), id: u32, n: u32) -> (u32, Sample) {
    answered(read(film).and_then(|movie| movie.sample(id, n)))
}

/// The offset and the length. "on refusal the empty beginning of the file"; document 02: "sample bytes aren't offered" where the moov is lent alone
pub fn sample_bytes(file: &[u8], id: u32, n: u32) -> (u64, u64) {
    let (_, sample) = sample(file, id, n);
    (sample.offset, sample.size)
}

/// The sample's number, and the position of its stts entry.
pub fn sample_at(film: &(impl Film + ?Sized), id: u32, t: u32) -> (u32, (u64, u64)) {
    answered(read(film).and_then(|movie| movie.sample_at(id, u64::from(t))))
}

pub fn media_time(film: &(impl Film + ?Sized), id: u32, t: u32) -> MediaTime {
    match read(film).and_then(|movie| movie.media_time(id, u64::from(t))) {
        Ok(Some(media_time)) => MediaTime::At(media_time),
        Ok(None) => MediaTime::NothingShown,
        Err(number) => MediaTime::Refused(number),
    }
}

/// The number of pairs and the total of bytes.
pub fn stretch<F: Film + ?Sized>(film: &F, id: u32, a: u32, b: u32, room: &mut [F::Number]) -> (u32, (u64, u64)) {
    answered(read(film).and_then(|movie| {
        let stretch = movie.stretch(id, u64::from(a), u64::from(b))?;
        let list: Vec<u64> = stretch.pairs.iter().flat_map(|(offset, length)| [*offset, *length]).collect();
        fill(room, &list)?;
        Ok((u64::try_from(stretch.pairs.len()).unwrap(), stretch.bytes))
    }))
}

/// The count of records.
pub fn stored_profile(film: &(impl Film + ?Sized), id: u32, room: &mut [u32]) -> (u32, u64) {
    answered(read(film).and_then(|movie| {
        let records = movie.stored_profile(id)?;
        let list: Vec<u64> = records.iter().flat_map(|record| [record.part_id, record.code, record.value]).collect();
        fill(room, &list)?;
        Ok(u64::try_from(records.len()).unwrap())
    }))
}

pub fn feature(film: &(impl Film + ?Sized), id: u32, code: u32) -> (u32, u32) {
    answered(read(film).and_then(|movie| movie.feature(id, code)))
}

/// The number of the first sample, and how many there are.
pub fn peak(film: &(impl Film + ?Sized), id: u32, code: u32) -> (u32, (u64, u64)) {
    answered(read(film).and_then(|movie| movie.peak(id, code)))
}

/// The slip's length in bytes. "The slip writer needs refusal 11 as proof that a file was closed properly and asks the strict way"
pub fn write_slip(film: &(impl Film + ?Sized), id: u32, a: u32, b: u32, room: &mut [u8]) -> (u32, u64) {
    answered(read_strictly(film).and_then(|movie| {
        let slip = movie.slip(id, a, b)?;
        if room.len() < slip.len() {
            return Err(NO_ROOM);
        }
        room[..slip.len()].copy_from_slice(&slip);
        Ok(u64::try_from(slip.len()).unwrap())
    }))
}

/// What the listing program prints for what stands on its standard input.
pub fn listing(input: &[u8]) -> String {
    // "reads up to 65,536 bytes from standard input (more: `too long`)"
    if input.len() > 65_536 {
        return "too long\n".to_string();
    }
    match read(input) {
        Ok(movie) => {
            let mut text = "id subtype scale total samples chunks edits stored\n".to_string();
            for [id, subtype, scale, total, n, c, edits, stored] in movie.track_list() {
                // "The subtype is eight lower-case hex digits, the rest decimal."
                text += &format!("{id} {subtype:08x} {scale} {total} {n} {c} {edits} {stored}\n");
            }
            text
        }
        // "A refused file prints only `refused` and its number."
        Err(number) => format!("refused {number}\n"),
    }
}
