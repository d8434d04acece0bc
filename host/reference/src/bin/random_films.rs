//! Films damaged at random, and what the reference says of them, to be compared with crates/structure_vectors:
//!
//!     random_films SEED COUNT FOLDER > expected; (cd FOLDER && ls | xargs PROGRAM) > found
//!
//! Refusals over 6 count as 0, since the crate structure knows those up to 6.
use reference::film::*;
use reference::maker::damage::{damage, damage_bytes};
use reference::maker::Random;
use reference::movie::refusal;

fn track(random: &mut Random, id: u32) -> Track {
    let mut track = Track { id, stco: vec![0, 8], ..w_track() };
    if random.below(2) == 0 {
        track.ctts = Some(vec![(4, -1)]);
        track.stss = Some(vec![1, 4]);
        track.edits = Some(vec![(60, 24, 65536)]);
    }
    if random.below(3) == 0 {
        track.subtype = *b"soun";
        track.descriptions = vec![description(b"twos", 16), description(b"twos", 35)];
    }
    if random.below(3) == 0 {
        track.profile = Some(vec![[0, 1, 2, 3]; random.one(&[0, 1, 64, 65])]);
    }
    if random.below(4) == 0 {
        track.stsz = Sizes::Common(50, random.one(&[4, 1_048_576, 1_048_577]));
    }
    track
}

fn film(random: &mut Random) -> Node {
    let count = u32::try_from(random.one(&[0, 1, 1, 1, 1, 2, 2, 3, 16, 17])).unwrap();
    let mut movie = Movie { tracks: (1..=count).map(|id| track(random, id)).collect(), ..w_movie() };
    if random.below(3) == 0 {
        movie.profile = Some(vec![[0, 1, 2, 3]; random.one(&[0, 1, 64, 65])]);
    }
    let mut film = movie.file();
    if random.below(3) == 0 {
        film.push("", atom("mdat", &[7; 20]));
    }
    film
}

fn main() {
    let arguments: Vec<String> = std::env::args().collect();
    let [_, seed, count, folder] = &arguments[..] else {
        panic!("random_films SEED COUNT FOLDER");
    };
    let mut random = Random::new(seed.parse().unwrap());
    for i in 0..count.parse::<u32>().unwrap() {
        let mut film = film(&mut random);
        for _ in 0..random.one(&[0, 1, 1, 1, 2, 2, 3]) {
            damage(&mut random, &mut film);
        }
        let mut bytes = film.bytes();
        if random.once_in(6) {
            damage_bytes(&mut random, &mut bytes);
        }
        bytes.truncate(65_536);
        let number = refusal(&bytes);
        let name = format!("{i:06}.mov");
        std::fs::write(format!("{folder}/{name}"), &bytes).unwrap();
        println!("{name}: {}", if number > 6 { 0 } else { number });
    }
}
