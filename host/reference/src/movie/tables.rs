//! The tables of a file that is not refused 1 to 6, as they stand, and then written out sample by sample.
use super::atoms::{Leaf, MovieLeaves, TrackLeaves};

/// An entry of an edit list.
#[derive(Clone, Copy, Debug, PartialEq)]
pub struct Edit {
    pub duration: u64,
    pub media_time: i64,
    pub rate: u64,
}

/// An entry of stsc.
#[derive(Clone, Copy, Debug, PartialEq)]
pub struct Run {
    pub first_chunk: u64,
    pub samples_per_chunk: u64,
    pub description_id: u64,
}

/// A record of a profile, without its reserved field.
#[derive(Clone, Copy, Debug, PartialEq)]
pub struct Record {
    pub part_id: u64,
    pub code: u64,
    pub value: u64,
}

/// The width and height of a description of a 'vide' track.
#[derive(Clone, Copy, Debug, PartialEq)]
pub struct Picture {
    pub width: u64,
    pub height: u64,
}

/// A data reference: its type, and whether it means this file.
#[derive(Clone, Copy, Debug, PartialEq)]
pub struct Reference {
    pub kind: u64,
    pub is_this_file: bool,
}

/// A chunk, with what stsc says of it.
#[derive(Clone, Copy, Debug, PartialEq)]
pub struct Chunk {
    pub offset: u64,
    pub samples: u64,
    pub description_id: u64,
}

/// The answer to the question "Sample n".
#[derive(Clone, Copy, Debug, Default, PartialEq)]
pub struct Sample {
    pub decode_time: u64,
    pub duration: u64,
    pub composition_time: i64,
    pub is_sync: bool,
    pub description_id: u64,
    pub chunk: u64,
    pub offset: u64,
    pub size: u64,
}

/// The tables of a track as they stand in the file. The sizes are N numbers, also where there is a common size.
#[derive(Clone, Debug, PartialEq)]
pub struct TrackTables {
    pub id: u64,
    pub subtype: u64,
    pub scale: u64,
    pub mdhd_duration: u64,
    /// As many as descriptions, where the subtype is 'vide', and none otherwise.
    pub pictures: Vec<Picture>,
    pub descriptions: u64,
    /// As many as descriptions.
    pub formats: Vec<u64>,
    /// As many as descriptions.
    pub reference_indices: Vec<u64>,
    pub references: Vec<Reference>,
    pub stts: Vec<(u64, u64)>,
    pub ctts: Option<Vec<(u64, i64)>>,
    pub stsc: Vec<Run>,
    pub sizes: Vec<u64>,
    pub chunk_offsets: Vec<u64>,
    /// The type of the table that has them, stco or co64.
    pub offset_table: [u8; 4],
    pub stss: Option<Vec<u64>>,
    pub edits: Option<Vec<Edit>>,
    /// Nothing where there is no profile.
    pub profile: Option<Vec<Record>>,
}

/// The tables of a movie as they stand in the file.
#[derive(Clone, Debug)]
pub struct MovieTables {
    pub scale: u64,
    /// As mvhd stores it.
    pub duration: u64,
    pub profile: Option<Vec<Record>>,
    pub tracks: Vec<TrackTables>,
}

/// A track whose tables do not contradict each other, with its samples and chunks written out.
#[derive(Clone, Debug, PartialEq)]
pub struct Track {
    pub tables: TrackTables,
    pub samples: Vec<Sample>,
    pub chunks: Vec<Chunk>,
    /// The total of the sample durations.
    pub total: u64,
}

/// A movie of such tracks.
#[derive(Clone, Debug, PartialEq)]
pub struct Movie {
    pub scale: u64,
    /// As mvhd stores it.
    pub duration: u64,
    pub profile: Option<Vec<Record>>,
    pub tracks: Vec<Track>,
}

/// The four characters as a number.
pub fn code(text: &[u8; 4]) -> u64 {
    u64::from(u32::from_be_bytes(*text))
}

/// The places at which the entries of a table with n entries of that width begin, the first of them at 16.
fn places(n: u64, width: usize) -> Vec<usize> {
    (0..usize::try_from(n).unwrap()).map(|i| 16 + width * i).collect()
}

/// Where each entry that states its own size begins and ends, n of them, "n at 12", each of at least that size; or how they do not fill the atom exactly.
fn sized(leaf: &Leaf, least: u64, entry: &str) -> Result<Vec<(u64, u64)>, String> {
    let size = leaf.size();
    if size < 16 {
        return Err(format!("has {size} bytes, and must have at least 16"));
    }
    let mut found = Vec::new();
    let mut at = 16;
    let n = leaf.number(12);
    for i in 1..=n {
        let remaining = size - at;
        if remaining < least {
            return Err(format!("states {n} {entry}s, and has {remaining} bytes left for {entry} {i}"));
        }
        let says = leaf.number(usize::try_from(at).unwrap());
        if says < least {
            return Err(format!("{entry} {i} says {says} bytes, and must say at least {least}"));
        }
        if says > remaining {
            let kind = String::from_utf8_lossy(&leaf.place.kind);
            return Err(format!("{entry} {i} says {says} bytes, the {kind} ends after {remaining}"));
        }
        found.push((at, at + says));
        at += says;
    }
    if at != size {
        return Err(format!("has {size} bytes, and its {n} {entry}s end after {at}"));
    }
    Ok(found)
}

/// "filled exactly by n descriptions | n at 12; each: size (at least 16), format"
pub fn descriptions(stsd: &Leaf) -> Result<Vec<(u64, u64)>, String> {
    sized(stsd, 16, "description")
}

/// "count at 12, then entries of size at least 12, type, version and flags, filling it exactly"
pub fn references(dref: &Leaf) -> Result<Vec<(u64, u64)>, String> {
    sized(dref, 12, "reference")
}

/// The data reference that begins at the place. "whose lowest flag bit is set, meaning this file"
fn reference(dref: &Leaf, at: u64) -> Reference {
    let at = usize::try_from(at).unwrap();
    Reference { kind: dref.number(at + 4), is_this_file: dref.number(at + 8) % 2 == 1 }
}

fn all_references(dref: &Leaf) -> Vec<Reference> {
    references(dref).unwrap().iter().map(|(begin, _)| reference(dref, *begin)).collect()
}

/// "each: size (at least 16), format"
fn formats(stsd: &Leaf) -> Vec<u64> {
    descriptions(stsd).unwrap().iter().map(|(begin, _)| stsd.number(usize::try_from(*begin).unwrap() + 4)).collect()
}

/// "Each description's reference index (16 bits at 14, counted from 1)"
fn reference_indices(stsd: &Leaf) -> Vec<u64> {
    descriptions(stsd).unwrap().iter().map(|(begin, _)| stsd.short(usize::try_from(*begin).unwrap() + 14)).collect()
}

/// "width at 32 and height at 34, 16 bits each", of the description that begins at the place.
fn picture(stsd: &Leaf, at: u64) -> Picture {
    let at = usize::try_from(at).unwrap();
    Picture { width: stsd.short(at + 32), height: stsd.short(at + 34) }
}

fn pictures(hdlr: &Leaf, stsd: &Leaf) -> Vec<Picture> {
    if hdlr.number(16) != code(b"vide") {
        return Vec::new();
    }
    descriptions(stsd).unwrap().iter().map(|(begin, _)| picture(stsd, *begin)).collect()
}

/// "sizes only if the common size is 0"
fn sizes(stsz: &Leaf) -> Vec<u64> {
    let common = stsz.number(12);
    let n = usize::try_from(stsz.number(16)).unwrap();
    (0..n).map(|i| if common == 0 { stsz.number(20 + 4 * i) } else { common }).collect()
}

/// How wide an offset is: in stco "16+4n", in co64 "(16+8n)".
pub fn offset_width(table: &Leaf) -> usize {
    if table.place.kind == *b"co64" {
        8
    } else {
        4
    }
}

fn chunk_offsets(table: &Leaf) -> Vec<u64> {
    let width = offset_width(table);
    places(table.number(12), width).into_iter().map(|at| table.number_of(width, at)).collect()
}

/// "Version not 0: there is none. Otherwise ... n at 12, each record being reserved, part-ID, feature code and value."
fn profile(prfl: &Option<Leaf>) -> Option<Vec<Record>> {
    let prfl = prfl.as_ref()?;
    if prfl.body[0] != 0 {
        return None;
    }
    let record =
        |at: usize| Record { part_id: prfl.number(at + 4), code: prfl.number(at + 8), value: prfl.number(at + 12) };
    Some(places(prfl.number(12), 16).into_iter().map(record).collect())
}

fn run(stsc: &Leaf, at: usize) -> Run {
    Run { first_chunk: stsc.number(at), samples_per_chunk: stsc.number(at + 4), description_id: stsc.number(at + 8) }
}

fn edit(elst: &Leaf, at: usize) -> Edit {
    Edit { duration: elst.number(at), media_time: elst.signed(at + 4), rate: elst.number(at + 8) }
}

fn track_tables(track: &TrackLeaves) -> TrackTables {
    let pair = |stts: &Leaf, at: usize| (stts.number(at), stts.number(at + 4));
    let shift = |ctts: &Leaf, at: usize| (ctts.number(at), ctts.signed(at + 4));
    TrackTables {
        id: track.tkhd.number(20),
        subtype: track.hdlr.number(16),
        scale: track.mdhd.number(20),
        mdhd_duration: track.mdhd.number(24),
        pictures: pictures(&track.hdlr, &track.stsd),
        descriptions: track.stsd.number(12),
        formats: formats(&track.stsd),
        reference_indices: reference_indices(&track.stsd),
        references: all_references(&track.dref),
        stts: places(track.stts.number(12), 8).into_iter().map(|at| pair(&track.stts, at)).collect(),
        ctts: track.ctts.as_ref().map(|t| places(t.number(12), 8).into_iter().map(|at| shift(t, at)).collect()),
        stsc: places(track.stsc.number(12), 12).into_iter().map(|at| run(&track.stsc, at)).collect(),
        sizes: sizes(&track.stsz),
        chunk_offsets: chunk_offsets(&track.chunk_offsets),
        offset_table: track.chunk_offsets.place.kind,
        stss: track.stss.as_ref().map(|t| places(t.number(12), 4).into_iter().map(|at| t.number(at)).collect()),
        edits: track.elst.as_ref().map(|t| places(t.number(12), 12).into_iter().map(|at| edit(t, at)).collect()),
        profile: profile(&track.prfl),
    }
}

/// The tables of a file that is not refused 1 to 6.
pub fn movie_tables(movie: &MovieLeaves) -> MovieTables {
    MovieTables {
        scale: movie.mvhd.number(20),
        duration: movie.mvhd.number(24),
        profile: profile(&movie.prfl),
        tracks: movie.tracks.iter().map(track_tables).collect(),
    }
}

/// Each chunk with its stsc entry. "An stsc entry holds from its first chunk up to the next entry's, the last one for all that remain."
/// For an stsc that starts at chunk 1, rises strictly and does not pass the last chunk.
pub fn chunks(track: &TrackTables) -> Vec<Chunk> {
    let mut dealt = Vec::new();
    for (i, run) in track.stsc.iter().enumerate() {
        let past = match track.stsc.get(i + 1) {
            Some(next) => next.first_chunk,
            None => u64::try_from(track.chunk_offsets.len()).unwrap() + 1,
        };
        for chunk in run.first_chunk..past {
            dealt.push(Chunk {
                offset: track.chunk_offsets[usize::try_from(chunk - 1).unwrap()],
                samples: run.samples_per_chunk,
                description_id: run.description_id,
            });
        }
    }
    dealt
}

/// One duration for each sample.
fn durations(track: &TrackTables) -> Vec<u64> {
    let mut each = Vec::new();
    for (count, duration) in &track.stts {
        for _ in 0..*count {
            each.push(*duration);
        }
    }
    each
}

/// One composition offset for each sample. "signed offset, 0 without ctts"
fn shifts(track: &TrackTables) -> Vec<i64> {
    let Some(ctts) = &track.ctts else {
        return vec![0; track.sizes.len()];
    };
    let mut each = Vec::new();
    for (count, shift) in ctts {
        for _ in 0..*count {
            each.push(*shift);
        }
    }
    each
}

/// Whether each sample is sync. "(all are, without stss)"
fn syncs(track: &TrackTables) -> Vec<bool> {
    let Some(stss) = &track.stss else {
        return vec![true; track.sizes.len()];
    };
    let mut each = vec![false; track.sizes.len()];
    for n in stss {
        each[usize::try_from(*n - 1).unwrap()] = true;
    }
    each
}

/// The samples of a track that is not refused 9, in order. "Chunk after chunk gets the next samples, as many as its stsc entry says."
fn samples(track: &TrackTables) -> Vec<Sample> {
    let (durations, shifts, syncs) = (durations(track), shifts(track), syncs(track));
    let mut each: Vec<Sample> = Vec::new();
    let mut decode_time = 0;
    for (i, chunk) in chunks(track).iter().enumerate() {
        let mut offset = chunk.offset;
        for _ in 0..chunk.samples {
            let n = each.len();
            each.push(Sample {
                decode_time,
                duration: durations[n],
                composition_time: i64::try_from(decode_time).unwrap() + shifts[n],
                is_sync: syncs[n],
                description_id: chunk.description_id,
                chunk: u64::try_from(i).unwrap() + 1,
                offset,
                size: track.sizes[n],
            });
            decode_time += durations[n];
            // What reaches 2^64 passes the end of every file, and is refused 12 before a question is asked.
            offset = offset.saturating_add(track.sizes[n]);
        }
    }
    each
}

/// A movie that is not refused 1 to 9, written out.
pub fn written_out(movie: MovieTables) -> Movie {
    let mut tracks = Vec::new();
    for tables in movie.tracks {
        let samples = samples(&tables);
        let total = samples.iter().map(|sample| sample.duration).sum();
        tracks.push(Track { samples, chunks: chunks(&tables), total, tables });
    }
    Movie { scale: movie.scale, duration: movie.duration, profile: movie.profile, tracks }
}
