//! Films whose tracks have profiles that are true, or nearly: records with the computed features and the formats, or with numbers next to them.
use super::layout::film_of;
use super::movies::{movie_of, track_count};
use super::random::Random;
use super::tables::chunk_bytes;
use crate::film::*;
use crate::movie::feature;

/// The part-ID of a record that speaks of the whole track.
pub const UNIVERSAL: u32 = 0x2020_2020;

/// The codes whose records are compared with a computed feature.
pub const FEATURES: [&[u8; 4]; 6] = [b"avvb", b"avab", b"mvbr", b"mabr", b"vfps", b"tvsz"];

/// The number, or often one above, or at times one below, in the lower half or the upper.
fn near(random: &mut Random, n: u32) -> u32 {
    let (above, below) = (n.saturating_add(1), n.saturating_sub(1));
    let (half_above, half_below) = (n.saturating_add(65536), n.saturating_sub(65536));
    random.one(&[n, n, n, n, above, half_above, u32::MAX, below, half_below, half_above.saturating_sub(1)])
}

/// Formats that differ from each other in a letter, for some descriptions.
fn rename_formats(random: &mut Random, track: &mut Track) {
    for description in &mut track.descriptions {
        description[4..8].copy_from_slice(random.one(&[b"jpeg", b"jpeh", b"JPEG", b"twos"]));
    }
}

/// The format in a description.
fn format_of(description: &[u8]) -> u32 {
    u32::from_be_bytes(description[4..8].try_into().unwrap())
}

/// Records that name each format, some of them twice; at times one is left out or put in.
fn format_records(random: &mut Random, track: &Track) -> Vec<[u32; 4]> {
    let code = random.one(&[b"vfmt", b"vfmt", b"afmt", b"VFMT"]);
    let code = if track.subtype == *b"soun" && random.below(4) > 0 { b"afmt" } else { code };
    let mut named: Vec<u32> = track.descriptions.iter().map(|bytes| format_of(bytes)).collect();
    if random.once_in(3) {
        named.push(random.one(&[u32::from_be_bytes(*b"jpeg"), u32::from_be_bytes(*b"jpei")]));
    }
    if random.once_in(4) {
        named.pop();
    }
    named.iter().map(|format| [random.number(), UNIVERSAL, u32::from_be_bytes(*code), *format]).collect()
}

/// A record for each feature that can be computed, and for few that can't.
fn feature_records(random: &mut Random, film: &[u8], track: &Track) -> Vec<[u32; 4]> {
    let mut records = Vec::new();
    for code in FEATURES.map(|code| u32::from_be_bytes(*code)) {
        let (number, value) = feature(film, track.id, code);
        if number == 0 || random.once_in(30) {
            records.push([random.number(), UNIVERSAL, code, near(random, value)]);
        }
    }
    records
}

fn profile(random: &mut Random, film: &[u8], track: &Track) -> Vec<[u32; 4]> {
    let mut records = feature_records(random, film, track);
    records.extend(format_records(random, track));
    random.shuffle(&mut records);
    for record in &mut records {
        match random.below(20) {
            0 => record[1] = random.one(&[0, UNIVERSAL + 1, 1]),
            1 => record[2] = random.one(&[0, u32::from_be_bytes(*b"AVVB")]),
            _ => (),
        }
    }
    records.truncate(64);
    records
}

fn laid_out(random: &mut Random, movie: &Movie) -> Vec<u8> {
    let bytes: Vec<Vec<u64>> = movie.tracks.iter().map(chunk_bytes).collect();
    film_of(random, movie, &bytes).bytes()
}

/// Such a film, accepted. The features do not depend on where the chunks lie, so they are had from the film without profiles.
pub fn claiming(random: &mut Random) -> Vec<u8> {
    let tracks = track_count(random);
    let mut movie = movie_of(random, tracks, false);
    movie.tracks.iter_mut().for_each(|track| rename_formats(random, track));
    let film = laid_out(random, &movie);
    for track in &mut movie.tracks {
        track.profile = Some(profile(random, &film, track));
    }
    laid_out(random, &movie)
}
