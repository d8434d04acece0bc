//! Refused 4: "a read leaf has a body whose first byte is not 0".
use super::base::*;

pub fn films(films: &mut Films) {
    for (name, path) in LEAVES {
        films.full(4, &format!("{name}-version-one"), |film| film.at(path).body[0] = 1);
        films.full(4, &format!("{name}-of-one-byte-one"), |film| film.at(path).body = vec![1]);
    }
    films.full(4, "mvhd-version-255", |film| film.at(path("mvhd")).body[0] = 255);
    films.full(4, "stsd-version-128", |film| film.at(path("stsd")).body[0] = 128);
    films.full(4, "stts-version-one-and-one-byte-short", |film| {
        film.at(path("stts")).body[0] = 1;
        film.at(path("stts")).body.pop();
    });
    films.full(4, "mvhd-of-120-bytes-version-one", |film| {
        film.at(path("mvhd")).body[0] = 1;
        film.resize(path("mvhd"), 112);
    });
    films.full(4, "hdlr-of-two-bytes-version-nine", |film| film.at(path("hdlr")).body = vec![9, 9]);
    films.node(4, "tkhd-version-one-in-last-of-two-traks", {
        let mut film = movie(&[small_track(), sound_track()]);
        film.at("moov trak:1 tkhd").body[0] = 1;
        film
    });
    films.node(4, "mvhd-version-one-without-trak", {
        let mut film = movie(&[]);
        film.at(path("mvhd")).body[0] = 1;
        film
    });
}
