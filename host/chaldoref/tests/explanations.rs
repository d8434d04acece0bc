//! The reference explains each film that the library refuses, and with the same number.
use chaldoref::{strict_refusal, Movie, Refusal};
use reference::maker::damage::damage_bytes;
use reference::maker::{film, valid, Random};
use reference::movie::{self, explain, explain_strictly, refusal};
use std::collections::BTreeSet;

/// The number with which a film is refused where strict reading is asked for, 0 for none: the library's, which the explanation and the reference
/// share; and so by default.
#[track_caller]
fn number(film: &[u8]) -> u32 {
    let same = |said: Option<Refusal>, explained: Option<(u32, String)>, number: u32| {
        assert_eq!(said.map_or(0, Refusal::number), number);
        assert_eq!(explained.as_ref().map_or(0, |refused| refused.0), number, "{explained:?}");
        number
    };
    same(Movie::open(film).err(), explain(film), refusal(film));
    same(strict_refusal(film), explain_strictly(film), movie::strict_refusal(film))
}

#[test]
fn films_of_every_kind() {
    let met: BTreeSet<u32> = (0..1000).map(|index| number(&film(&mut Random::of(6, index)))).collect();
    // Refusal 1 takes 2 GiB.
    assert_eq!(met, [0].into_iter().chain(2..=13).chain([19]).collect());
}

#[test]
fn films_with_damage() {
    let mut refused = 0;
    for index in 0..500 {
        let mut random = Random::of(7, index);
        let mut bytes = valid(&mut random);
        damage_bytes(&mut random, &mut bytes);
        refused += usize::from(number(&bytes) != 0);
    }
    assert!(refused > 100, "{refused}");
}
