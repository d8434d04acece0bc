//! Whether a film has fragments. The papers read none: a film that has some is read in part, and whoever relies on its film time must be told.
use super::atoms::{of_kind, tree};
use super::lent::{Film, Way};
use super::questions::answered;
use super::refusals::read;

/// Whether the moov has an mvex, and whether the file has a moof at top level, of a film that is not refused. Of a moov alone the top level is not known.
pub fn has_fragments(film: &(impl Film + ?Sized)) -> [bool; 2] {
    let lent = film.lent();
    let top = tree(lent.bytes).unwrap();
    let moov = of_kind(&top, b"moov")[0];
    let has_moof = lent.way == Way::WholeFile && !of_kind(&top, b"moof").is_empty();
    [!of_kind(&moov.children, b"mvex").is_empty(), has_moof]
}

/// The same as numbers. The refusals are those of the file.
pub fn fragments(film: &(impl Film + ?Sized)) -> (u32, [u64; 2]) {
    answered(read(film).map(|_| has_fragments(film).map(u64::from)))
}
