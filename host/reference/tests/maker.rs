//! The maker's films are what they are meant to be.
use reference::maker::{self, slips, Random};
use reference::movie::strict_refusal;
use reference::slip::read_slip;
use std::collections::BTreeSet;

#[test]
fn films_without_faults_are_accepted() {
    for index in 0..3000 {
        assert_eq!(strict_refusal(&maker::valid(&mut Random::of(1, index))), 0, "film {index}");
    }
}

#[test]
fn films_meet_each_refusal_of_a_file_but_1() {
    let met: BTreeSet<u32> = (0..6000).map(|index| strict_refusal(&maker::film(&mut Random::of(2, index)))).collect();
    assert_eq!(met, [0].into_iter().chain(2..=13).chain([19]).collect());
}

#[test]
fn an_index_makes_the_same_film_again() {
    let film = |index| maker::film(&mut Random::of(3, index));
    assert_eq!(film(7), film(7));
    assert_ne!(film(7), film(8));
}

#[test]
fn slips_are_accepted_and_malformed() {
    let mut random = Random::new(4);
    let refusals: Vec<u32> = (0..300).map(|_| read_slip(&slips::slip(&mut random), &mut [0; 300]).0).collect();
    assert!(refusals.contains(&0) && refusals.contains(&17));
}
