//! Refusal 19 of document 02: a description whose samples are in another file.
use crate::movie::fault::{in_tracks, many, Fault};
use crate::movie::tables::{Movie, TrackTables};

/// The type of a data reference in quotes, since one is `url` and a blank; in hex where it has other than printable characters.
fn kind_name(kind: u64) -> String {
    let bytes = u32::try_from(kind).unwrap().to_be_bytes();
    match std::str::from_utf8(&bytes) {
        Ok(name) if bytes.iter().all(|byte| byte.is_ascii_graphic() || *byte == b' ') => format!("'{name}'"),
        _ => format!("0x{kind:08X}"),
    }
}

/// Why the entry that an index names does not mean this file, if it doesn't.
fn not_this_file(track: &TrackTables, index: u64) -> Option<String> {
    let reference = index.checked_sub(1).and_then(|at| track.references.get(usize::try_from(at).unwrap()));
    match reference {
        Some(reference) if reference.is_this_file => None,
        Some(reference) => Some(format!("of type {}, which is another file", kind_name(reference.kind))),
        None if index == 0 => Some("and references count from 1".to_string()),
        None => {
            let has = u64::try_from(track.references.len()).unwrap();
            Some(format!("dref has {}", many(has, "reference", "references")))
        }
    }
}

fn elsewhere(track: &TrackTables) -> Option<Fault> {
    let fault = |(i, index): (usize, &u64)| {
        let why = not_this_file(track, *index)?;
        Some(Fault::of(b"stsd", format!("description {} names data reference {index}, {why}", i + 1)))
    };
    track.reference_indices.iter().enumerate().find_map(fault)
}

/// "Each description's reference index ... must name an entry whose lowest flag bit is set, meaning this file."; "data elsewhere or no such entry"
pub fn refused_19(movie: &Movie) -> Option<Fault> {
    in_tracks(&movie.tracks, |track| elsewhere(&track.tables))
}
