//! What document 02, "Films above two gigabytes", refuses besides where the moov is lent alone.
use crate::movie::atoms::{of_kind, Atom};

/// "takes the moov atom alone in lent bytes, at most 2,147,483,647 ..., with the file's length as a number up to 2^63-1"
const MOST_LENT: u64 = 2_147_483_647;
const MOST_LENGTH: u64 = (1 << 63) - 1;

/// "1 there for lent bytes above their limit, or a length above 2^63-1 or below theirs"
pub fn refused_1_alone(lent: usize, length: u64) -> Option<String> {
    let lent = u64::try_from(lent).unwrap();
    if lent > MOST_LENT {
        return Some(format!("the moov has at least {lent} bytes, and may have {MOST_LENT}"));
    }
    if length > MOST_LENGTH {
        return Some(format!("the file has {length} bytes, and may have {MOST_LENGTH}"));
    }
    (length < lent).then(|| format!("the file has {length} bytes, and its moov {lent}"))
}

/// "2 if the lent bytes aren't one moov atom"
pub fn not_one_moov(lent: &[Atom]) -> Option<String> {
    let (atoms, moovs) = (lent.len(), of_kind(lent, b"moov").len());
    ((atoms, moovs) != (1, 1))
        .then(|| format!("the lent bytes are {atoms} atoms, {moovs} of them moov, and must be one"))
}

/// "exactly one of the two"; "3 if both offset tables or neither is there"
pub fn not_one_offset_table(stbl: &Atom) -> Option<String> {
    let [stco, co64] = [b"stco", b"co64"].map(|kind| of_kind(&stbl.children, kind).len());
    let words = || format!("{} has {stco} stco and {co64} co64, and must have one of the two", stbl.place);
    (stco + co64 != 1).then(words)
}
