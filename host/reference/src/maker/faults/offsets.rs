//! Chunks just within the file's end, or just past it (refusal 12).
use crate::film::*;
use crate::maker::layout::stco_path;
use crate::maker::random::Random;
use crate::maker::tables::count;

/// Sizes that reach past the end, or whose sum would come back to a small number in 32 bits.
pub fn spoil_sizes(random: &mut Random, movie: &mut Movie) {
    let Some(track) = movie.tracks.first_mut() else {
        return;
    };
    let big = random.one(&[1 << 31, u32::MAX, (1 << 31) - 1, 1 << 20]);
    match &mut track.stsz {
        Sizes::Common(size, _) => *size = big,
        Sizes::Each(sizes) => {
            let begin = random.below(sizes.len() + 1);
            let end = (begin + random.one(&[1, 2])).min(sizes.len());
            sizes[begin..end].fill(big);
        }
    }
}

/// Moves a chunk of a track to the end of a film that is laid out, or past it.
pub fn spoil_offset(random: &mut Random, film: &mut Node, track: usize, bytes: &[u64]) {
    let length = count(film.bytes().len());
    let stco = film.at(&stco_path(track));
    let places = (stco.body.len() - 8) / 4;
    if places == 0 {
        return;
    }
    let place = random.below(places);
    let bytes = bytes.get(place).map_or(0, |bytes| u32::try_from(*bytes).unwrap());
    let last = length.saturating_sub(bytes);
    stco.set("", 16 + 4 * place, random.one(&[last, last + 1, last + 1, length, length + 1, 1 << 31, u32::MAX]));
}
