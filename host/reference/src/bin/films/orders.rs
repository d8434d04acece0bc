//! Films with two faults: "The answer is the lowest number that applies; each condition is judged on files that pass all lower ones."
use super::base::*;
use reference::film::*;

const FIRST: &str = "moov trak:0";
const LAST: &str = "moov trak:1";

/// Makes a film of two tracks be refused with a number, by a change to the track at the path.
fn break_track(film: &mut Node, path: &str, number: u32) {
    let stbl = format!("{path} mdia minf stbl");
    match number {
        2 => film.at(path).tail = vec![0; 3],
        3 => film.remove(&format!("{stbl} stco")),
        4 => film.at(&format!("{stbl} stts")).body[0] = 1,
        5 => film.resize(&format!("{path} tkhd"), 83),
        6 => film.replace(&format!("{stbl} stsz"), stsz(&Sizes::Common(1, 1_048_577))),
        _ => panic!("{number}"),
    }
}

pub fn films(films: &mut Films) {
    for low in 2..6 {
        for high in low + 1..7 {
            let mut film = movie(&[small_track(), sound_track()]);
            break_track(&mut film, LAST, low);
            break_track(&mut film, FIRST, high);
            films.node(low, &format!("in-the-last-track-and-{high}-in-the-first"), film);
        }
    }
    // The number of a fault at the end of the file, with others before it.
    films.small(2, "at-the-end-with-3-to-5-before", |film| {
        film.tail = vec![0; 7];
        film.resize("moov trak tkhd", 83);
        film.at(path("stts")).body[0] = 1;
        film.remove(path("stco"));
    });
    films.node(5, "in-the-last-of-17-traks", {
        let mut film = movie(&vec![empty_track(1); 17]);
        film.resize("moov trak:16 tkhd", 83);
        film
    });
    films.small(4, "in-stco-and-an-empty-prfl", |film| {
        film.at(path("stco")).body[0] = 1;
        film.insert_before("moov mvhd", atom("prfl", &[]));
    });
    films.small(5, "in-prfl-and-65-records-in-moov", |film| {
        film.insert_before("moov mvhd", prfl(&[[0, 1, 2, 3]; 65]));
        film.insert_before("moov trak tkhd", atom("prfl", &[]));
    });
    films.small(5, "in-mvhd-and-too-many-samples", |film| {
        film.resize("moov mvhd", 99);
        film.replace(path("stsz"), stsz(&Sizes::Common(1, 1_048_577)));
    });
    films.full(5, "257-edits-of-which-one-is-cut", |film| {
        film.replace(path("elst"), elst(&[(1, -1, 65536); 257]));
        film.at(path("elst")).body.pop();
    });
    films.full(5, "65-records-of-which-one-is-cut", |film| {
        film.replace("moov prfl", prfl(&[[0, 1, 2, 3]; 65]));
        film.at("moov prfl").body.pop();
    });
}
