//! A slip that was typed by hand and is not the film's: which one byte, read otherwise, makes it so. Nothing is proved by it; whoever has the paper
//! slip can look there first.
use chaldoref::AnySlip;

/// No one types a longer slip, and each change of it is compared with the film.
const LONGEST: usize = 512;

/// A change of a slip, in words, and the slip so changed.
struct Change {
    words: String,
    slip: Vec<u8>,
}

/// The one change that makes the slip the film's. Exchanges are tried first, of the digits of a byte and of neighbours, and then every other
/// byte; where several of a kind do, nothing is said.
pub fn as_the_films(slip: &[u8], is_the_films: impl Fn(&AnySlip) -> bool) -> Option<String> {
    if slip.len() > LONGEST {
        return None;
    }
    let fits = |change: &Change| AnySlip::read(&change.slip).is_ok_and(|slip| is_the_films(&slip));
    let exchanged: Vec<Change> = exchanges(slip).filter(fits).take(2).collect();
    let found = if exchanged.is_empty() { changes(slip).filter(fits).take(2).collect() } else { exchanged };
    match &found[..] {
        [one] => Some(format!("{} makes it this film's slip (bytes are counted from 0)", one.words)),
        _ => None,
    }
}

/// The digits of a byte, two neighbouring digits of two bytes, or two neighbouring bytes, exchanged.
fn exchanges(slip: &[u8]) -> impl Iterator<Item = Change> + '_ {
    let digits = (0..slip.len()).map(|place| changed(slip, place, slip[place].rotate_left(4)));
    let across = (1..slip.len()).map(|place| {
        let (one, two) = (slip[place - 1], slip[place]);
        exchanged(slip, place, [one & 0xf0 | two >> 4, one << 4 | two & 0x0f])
    });
    let neighbours = (1..slip.len()).map(|place| exchanged(slip, place, [slip[place], slip[place - 1]]));
    digits.chain(across).chain(neighbours).filter(move |change| change.slip != slip)
}

/// A byte and the one before it as two others.
fn exchanged(slip: &[u8], place: usize, now: [u8; 2]) -> Change {
    let mut other = slip.to_vec();
    other[place - 1..=place].copy_from_slice(&now);
    let [one, two] = now;
    let words = format!(
        "bytes {} and {place}: {:02X} {:02X} read as {one:02X} {two:02X}",
        place - 1,
        slip[place - 1],
        slip[place]
    );
    Change { words, slip: other }
}

/// Each byte as every other.
fn changes(slip: &[u8]) -> impl Iterator<Item = Change> + '_ {
    let each = move |place: usize| {
        (0..=255).filter(move |byte| *byte != slip[place]).map(move |byte| changed(slip, place, byte))
    };
    (0..slip.len()).flat_map(each)
}

fn changed(slip: &[u8], place: usize, byte: u8) -> Change {
    let mut other = slip.to_vec();
    other[place] = byte;
    Change { words: format!("byte {place}: {:02X} read as {byte:02X}", slip[place]), slip: other }
}

#[cfg(test)]
mod tests {
    use super::*;

    const SLIP: [u8; 13] = [0x01, 0x01, 0xd8, 0x04, 0x18, 0x49, 0x02, 0xcc, 0x08, 0x32, 0x84, 0x07, 0x46];

    fn said(slip: &[u8]) -> Option<String> {
        let good = AnySlip::read(&SLIP).unwrap();
        as_the_films(slip, |slip| *slip == good)
    }

    fn with(place: usize, byte: u8) -> Vec<u8> {
        changed(&SLIP, place, byte).slip
    }

    #[test]
    fn one_byte() {
        assert_eq!(
            said(&with(5, 0x94)).as_deref(),
            Some("byte 5: 94 read as 49 makes it this film's slip (bytes are counted from 0)")
        );
        assert_eq!(
            said(&with(12, 0x47)).as_deref(),
            Some("byte 12: 47 read as 46 makes it this film's slip (bytes are counted from 0)")
        );
        let mut exchanged = SLIP.to_vec();
        exchanged.swap(8, 9);
        let words = "bytes 8 and 9: 32 08 read as 08 32 makes it this film's slip (bytes are counted from 0)";
        assert_eq!(said(&exchanged).as_deref(), Some(words));
        // 08 32 typed as 03 82.
        let mut across = with(8, 0x03);
        across[9] = 0x82;
        let words = "bytes 8 and 9: 03 82 read as 08 32 makes it this film's slip (bytes are counted from 0)";
        assert_eq!(said(&across).as_deref(), Some(words));
    }

    /// Every byte that is mistyped is found, since one slip alone is good here.
    #[test]
    fn every_place() {
        for place in 0..SLIP.len() {
            let slip = with(place, SLIP[place] ^ 0x05);
            let expected = format!(
                "byte {place}: {:02X} read as {:02X} makes it this film's slip (bytes are counted from 0)",
                slip[place], SLIP[place]
            );
            assert_eq!(said(&slip), Some(expected));
        }
    }

    #[test]
    fn what_no_one_change_mends() {
        assert_eq!(said(&SLIP[..12]), None);
        assert_eq!(said(&[]), None);
        let mut two = with(5, 0x48);
        two[12] = 0x45;
        assert_eq!(said(&two), None);
        // Two changes that would: which was meant is not known.
        assert_eq!(as_the_films(&with(5, 0x17), |slip| slip.a == 24 && slip.b < 27), None);
    }
}
