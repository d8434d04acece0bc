//! Refusal 9: the sample tables of a track contradict each other.
use crate::movie::fault::{in_tracks, many, name, Fault};
use crate::movie::tables::{chunks, MovieTables, TrackTables};

fn samples(n: u64) -> String {
    many(n, "sample", "samples")
}

fn chunks_in_words(n: u64) -> String {
    many(n, "chunk", "chunks")
}

/// "an stts or ctts entry counts 0 samples"
fn counts_none(atom: &[u8; 4], counts: &[u64]) -> Option<Fault> {
    let i = counts.iter().position(|count| *count == 0)?;
    Some(Fault::of(atom, format!("entry {} counts 0 samples", i + 1)))
}

/// "stts, or a present ctts, doesn't total N"
fn other_total(atom: &[u8; 4], counts: &[u64], n: u64) -> Option<Fault> {
    let total: u64 = counts.iter().sum();
    (total != n).then(|| Fault::of(atom, format!("counts {}, stsz {n}", samples(total))))
}

fn miscounted(track: &TrackTables, n: u64) -> Option<Fault> {
    let stts: Vec<u64> = track.stts.iter().map(|entry| entry.0).collect();
    let ctts: Option<Vec<u64>> = track.ctts.as_ref().map(|ctts| ctts.iter().map(|entry| entry.0).collect());
    counts_none(b"stts", &stts)
        .or_else(|| counts_none(b"ctts", ctts.as_ref()?))
        .or_else(|| other_total(b"stts", &stts, n))
        .or_else(|| other_total(b"ctts", ctts.as_ref()?, n))
}

/// "C is 0 with stsc not empty or N not 0"
fn without_chunks(track: &TrackTables, n: u64) -> Option<Fault> {
    if n != 0 {
        return Some(Fault::of(&track.offset_table, format!("counts 0 chunks, stsz {}", samples(n))));
    }
    let entries = u64::try_from(track.stsc.len()).unwrap();
    let words = || format!("has {}, {} 0 chunks", many(entries, "entry", "entries"), name(&track.offset_table));
    (entries != 0).then(|| Fault::of(b"stsc", words()))
}

/// Which number, counted from 0, is not above the one before it.
fn not_rising(numbers: &[u64]) -> Option<usize> {
    numbers.windows(2).position(|two| two[0] >= two[1]).map(|i| i + 1)
}

/// "C is above 0 and stsc is empty, doesn't start at chunk 1, isn't strictly rising, or passes C"
fn with_chunks(track: &TrackTables, c: u64) -> Option<Fault> {
    let first_chunks: Vec<u64> = track.stsc.iter().map(|run| run.first_chunk).collect();
    let table = name(&track.offset_table);
    let fault = |words| Some(Fault::of(b"stsc", words));
    let Some(first) = first_chunks.first() else {
        return fault(format!("has 0 entries, {table} {}", chunks_in_words(c)));
    };
    if *first != 1 {
        return fault(format!("entry 1 begins at chunk {first}, and must at chunk 1"));
    }
    if let Some(i) = not_rising(&first_chunks) {
        let [before, this] = [first_chunks[i - 1], first_chunks[i]];
        return fault(format!("entry {} begins at chunk {this}, entry {i} at chunk {before}", i + 1));
    }
    let i = first_chunks.iter().position(|first| *first > c)?;
    fault(format!("entry {} begins at chunk {}, {table} has {}", i + 1, first_chunks[i], chunks_in_words(c)))
}

fn wrong_entry(track: &TrackTables) -> Option<Fault> {
    let fault = |i: usize, words: String| Some(Fault::of(b"stsc", format!("entry {} {words}", i + 1)));
    // "an entry has 0 samples per chunk"
    if let Some(i) = track.stsc.iter().position(|run| run.samples_per_chunk == 0) {
        return fault(i, "deals 0 samples to each chunk".to_string());
    }
    // "an ID is 0 or above the number of descriptions"
    let is_wrong = |id: u64| id == 0 || id > track.descriptions;
    let i = track.stsc.iter().position(|run| is_wrong(run.description_id))?;
    let described = many(track.descriptions, "description", "descriptions");
    fault(i, format!("names description {}, stsd has {described}", track.stsc[i].description_id))
}

/// "samples dealt to the C chunks don't total N"
fn other_deal(track: &TrackTables, n: u64, c: u64) -> Option<Fault> {
    let dealt = chunks(track).iter().map(|chunk| chunk.samples).sum::<u64>();
    let words = || format!("deals {} to {}, stsz counts {n}", samples(dealt), chunks_in_words(c));
    (dealt != n).then(|| Fault::of(b"stsc", words()))
}

/// "stss isn't strictly rising within 1 to N"
fn wrong_syncs(stss: &[u64], n: u64) -> Option<Fault> {
    let fault = |words| Some(Fault::of(b"stss", words));
    if let Some(i) = not_rising(stss) {
        return fault(format!("entry {} is sample {}, entry {i} sample {}", i + 1, stss[i], stss[i - 1]));
    }
    let i = stss.iter().position(|sample| *sample < 1 || *sample > n)?;
    let (entry, sample) = (i + 1, stss[i]);
    if sample == 0 {
        return fault(format!("entry {entry} is sample 0, and samples count from 1"));
    }
    fault(format!("entry {entry} is sample {sample}, stsz counts {n}"))
}

fn contradiction(track: &TrackTables) -> Option<Fault> {
    let n = u64::try_from(track.sizes.len()).unwrap();
    let c = u64::try_from(track.chunk_offsets.len()).unwrap();
    let chunks = || if c == 0 { without_chunks(track, n) } else { with_chunks(track, c) };
    miscounted(track, n)
        .or_else(chunks)
        .or_else(|| wrong_entry(track))
        .or_else(|| other_deal(track, n, c))
        .or_else(|| wrong_syncs(track.stss.as_ref()?, n))
}

/// "sample tables contradict each other (below)"
pub fn refused_9(movie: &MovieTables) -> Option<Fault> {
    in_tracks(&movie.tracks, contradiction)
}
