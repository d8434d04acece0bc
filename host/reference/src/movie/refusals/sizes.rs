//! Refusal 5: the sizes of the leaves that are read.
use crate::movie::atoms::{Leaf, MovieLeaves, TrackLeaves};
use crate::movie::fault::{in_tracks, many, Fault};
use crate::movie::tables::{code, descriptions, offset_width, references};

/// The leaf has another size; the words say which it must have.
fn wrong(leaf: &Leaf, must_have: &str) -> Option<Fault> {
    let has = many(leaf.size(), "byte", "bytes");
    Some(Fault::of(&leaf.place.kind, format!("has {has}, and must have {must_have}")))
}

fn not_exactly(leaf: &Leaf, size: u64) -> Option<Fault> {
    if leaf.size() == size {
        return None;
    }
    wrong(leaf, &size.to_string())
}

fn not_at_least(leaf: &Leaf, size: u64) -> Option<Fault> {
    if leaf.size() >= size {
        return None;
    }
    wrong(leaf, &format!("at least {size}"))
}

/// "16+12n", "16+8n" or "16+4n", "n at 12": a leaf of under 16 bytes holds no n and has no such size
fn not_table_size(leaf: &Leaf, width: u64) -> Option<Fault> {
    if leaf.size() < 16 {
        return wrong(leaf, "at least 16");
    }
    let n = leaf.number(12);
    let size = 16 + width * n;
    if leaf.size() == size {
        return None;
    }
    wrong(leaf, &format!("{size} for {}", many(n, "entry", "entries")))
}

/// "20+4n, or 20 | common size 12, n at 16; sizes only if the common size is 0"
fn not_stsz_size(stsz: &Leaf) -> Option<Fault> {
    if stsz.size() < 20 {
        return wrong(stsz, "at least 20");
    }
    let (common, n) = (stsz.number(12), stsz.number(16));
    if common != 0 {
        return if stsz.size() == 20 {
            None
        } else {
            wrong(stsz, &format!("20 with a common size, which is {common}"))
        };
    }
    let size = 20 + 4 * n;
    if stsz.size() == size {
        return None;
    }
    wrong(stsz, &format!("{size} for {}", many(n, "size", "sizes")))
}

/// "filled exactly by n descriptions"; "In a track of subtype 'vide' a description is at least 36 bytes (else refused 5)"
fn not_stsd_size(stsd: &Leaf, subtype: u64) -> Option<Fault> {
    let fault = |words| Some(Fault::of(b"stsd", words));
    let all = match descriptions(stsd) {
        Ok(all) => all,
        Err(words) => return fault(words),
    };
    let is_short = |(begin, end): &(u64, u64)| subtype == code(b"vide") && end - begin < 36;
    let i = all.iter().position(is_short)?;
    let size = all[i].1 - all[i].0;
    fault(format!("description {} has {size} bytes, and must have at least 36 in a track of subtype vide", i + 1))
}

/// Document 02: "entries of size at least 12, type, version and flags, filling it exactly"
fn not_dref_size(dref: &Leaf) -> Option<Fault> {
    references(dref).err().map(|words| Fault::of(b"dref", words))
}

/// "Version not 0: there is none. Otherwise its size is 16+16n, n at 12"; "An empty body is refused 5."
fn not_profile_size(prfl: &Leaf) -> Option<Fault> {
    match prfl.body.first() {
        None => wrong(prfl, "at least 16"),
        Some(0) => not_table_size(prfl, 16),
        Some(_) => None,
    }
}

/// "stco, stss | 16+4n"; document 02: "'co64' (16+8n)"
fn not_offset_table_size(table: &Leaf) -> Option<Fault> {
    not_table_size(table, u64::try_from(offset_width(table)).unwrap())
}

fn wrong_track_size(track: &TrackLeaves) -> Option<Fault> {
    let optional = |leaf: &Option<Leaf>, width: u64| leaf.as_ref().and_then(|leaf| not_table_size(leaf, width));
    track
        .prfl
        .as_ref()
        .and_then(not_profile_size)
        .or_else(|| not_exactly(&track.tkhd, 92))
        .or_else(|| not_exactly(&track.mdhd, 32))
        .or_else(|| not_at_least(&track.hdlr, 32))
        .or_else(|| optional(&track.elst, 12))
        .or_else(|| not_dref_size(&track.dref))
        .or_else(|| not_table_size(&track.stts, 8))
        .or_else(|| optional(&track.ctts, 8))
        .or_else(|| not_table_size(&track.stsc, 12))
        .or_else(|| not_stsz_size(&track.stsz))
        .or_else(|| not_offset_table_size(&track.chunk_offsets))
        .or_else(|| optional(&track.stss, 4))
        .or_else(|| not_stsd_size(&track.stsd, track.hdlr.number(16)))
}

/// "a read leaf or profile hasn't its size"
pub fn refused_5(movie: &MovieLeaves) -> Option<Fault> {
    let profile = movie.prfl.as_ref().and_then(not_profile_size);
    profile.or_else(|| not_exactly(&movie.mvhd, 108)).or_else(|| in_tracks(&movie.tracks, wrong_track_size))
}
