//! The tables of a set written out in full, by the words of document 01: a number for each sample, chunk and edit.
use reference::film::{Sizes, Track};

pub fn long(n: usize) -> u64 {
    u64::try_from(n).unwrap()
}

/// Where a sample lies: the index of its chunk, its index in the chunk, the description ID and the offset.
#[derive(Clone, Copy)]
pub struct Place {
    pub chunk: u64,
    pub within: u64,
    pub description: u64,
    pub offset: u64,
}

/// A chunk: its offset, how many samples it has, and its description ID.
#[derive(Clone, Copy)]
pub struct Chunk {
    pub offset: u64,
    pub samples: u64,
    pub description: u64,
}

/// One duration for each sample.
pub fn durations(track: &Track) -> Vec<u64> {
    track.stts.iter().flat_map(|(count, each)| (0..*count).map(|_| u64::from(*each))).collect()
}

/// "decode time (sum of durations before it)"
pub fn starts(track: &Track) -> Vec<u64> {
    let mut sum = 0;
    let mut starts = Vec::new();
    for duration in durations(track) {
        starts.push(sum);
        sum += duration;
    }
    starts
}

/// One composition offset for each sample of ctts; none without it.
pub fn shifts(track: &Track) -> Vec<i64> {
    let entries = track.ctts.clone().unwrap_or_default();
    entries.iter().flat_map(|(count, each)| (0..*count).map(|_| i64::from(*each))).collect()
}

/// One size for each sample.
pub fn sizes(track: &Track) -> Vec<u64> {
    match &track.stsz {
        Sizes::Common(size, count) => (0..*count).map(|_| u64::from(*size)).collect(),
        Sizes::Each(each) => each.iter().map(|size| u64::from(*size)).collect(),
    }
}

/// "An stsc entry holds from its first chunk up to the next entry's, the last one for all that remain." For tables that agree.
pub fn chunks(track: &Track) -> Vec<Chunk> {
    let mut chunks = Vec::new();
    for (i, offset) in track.stco.iter().enumerate() {
        let number = u32::try_from(i).unwrap() + 1;
        let entry = track.stsc.iter().rfind(|entry| entry.0 <= number).unwrap();
        chunks.push(Chunk { offset: u64::from(*offset), samples: u64::from(entry.1), description: u64::from(entry.2) });
    }
    chunks
}

/// "Chunk after chunk gets the next samples, as many as its stsc entry says."; "offset (chunk offset plus sizes before it in the chunk)"
pub fn places(track: &Track) -> Vec<Place> {
    let sizes = sizes(track);
    let mut places: Vec<Place> = Vec::new();
    for (i, chunk) in chunks(track).iter().enumerate() {
        let mut offset = chunk.offset;
        for within in 0..chunk.samples {
            let size = sizes[places.len()];
            places.push(Place { chunk: long(i), within, description: chunk.description, offset });
            offset += size;
        }
    }
    places
}

/// Where each chunk ends: "a chunk's offset plus the sizes of its samples"
pub fn ends(track: &Track) -> Vec<u64> {
    let (sizes, places) = (sizes(track), places(track));
    let mut ends: Vec<u64> = track.stco.iter().map(|offset| u64::from(*offset)).collect();
    for (size, place) in sizes.iter().zip(places) {
        ends[usize::try_from(place.chunk).unwrap()] += size;
    }
    ends
}

/// When each edit starts, and last when the last one ends. "Entries follow one another from movie time 0."
pub fn edit_starts(edits: &[(u32, i32, u32)]) -> Vec<u64> {
    let mut sum = 0;
    let mut starts = vec![0];
    for (duration, _, _) in edits {
        sum += u64::from(*duration);
        starts.push(sum);
    }
    starts
}
