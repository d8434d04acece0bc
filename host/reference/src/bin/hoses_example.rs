//! What crates/hoses_example is run on, and what it prints, from the reference.
//!
//! Writes to the folder that is its argument what stands beside the program's src/: the film on standard input, the arguments, the files that they
//! name, and the answers.
use reference::film::*;
use reference::hoses::two_hoses;
use reference::made::{empty_track, movie};
use reference::movie::{listing, refusal, sample, stretch, track_list, write_slip};
use reference::slip::read_slip;

/// The most bytes that the program reads.
const MOST: usize = 65_536;

/// Room for each answer about so many bytes.
const ROOM: usize = 2 * MOST;

/// The answer, or the number of its refusal.
fn answered<T>((number, answer): (u32, T)) -> Result<T, u32> {
    if number == 0 {
        Ok(answer)
    } else {
        Err(number)
    }
}

/// The film time that the slip of a track from a to b files, read from its bytes alone.
fn filed(film: &[u8], id: u32, a: u32, b: u32) -> Result<u32, u32> {
    let mut out = [0; ROOM];
    let length = answered(write_slip(film, id, a, b, &mut out))?;
    let (number, head, _) = read_slip(&out[..usize::try_from(length).unwrap()], &mut [0; ROOM]);
    answered((number, head.b - head.a))
}

/// The track filed in two slips, which meet where its second sample starts; in one where no film time lies before that or after it.
fn account(film: &[u8], id: u32, total: u32) -> Result<String, u32> {
    if total == 0 {
        return Ok("no film time".to_string());
    }
    let cut = answered(sample(film, id, 2)).map_or(0, |second| u32::try_from(second.decode_time).unwrap());
    let (slips, units) = if 0 < cut && cut < total {
        let (first, second) = (filed(film, id, 0, cut)?, filed(film, id, cut, total)?);
        (format!("one slip files {first} units of film time and one {second}"), first + second)
    } else {
        let units = filed(film, id, 0, total)?;
        (format!("one slip files {units} units of film time"), units)
    };
    let verdict = if units == total { "adds up" } else { "does not add up" };
    Ok(format!("{slips}, the movie has {total}: {verdict}"))
}

/// The whole of a track as byte ranges.
fn bytes(film: &[u8], id: u32, total: u32) -> Result<String, u32> {
    let mut room = [0; ROOM];
    let (pairs, bytes) = answered(stretch(film, id, 0, total, &mut room))?;
    let range = |pair: &[u32]| format!("{} bytes of film from byte {} of the file\n", pair[1], pair[0]);
    let ranges: String = room.chunks(2).take(usize::try_from(pairs).unwrap()).map(range).collect();
    Ok(format!("{ranges}{bytes} bytes of film in all\n"))
}

fn answers(film: &[u8]) -> String {
    let mut list = [0; 128];
    let (number, count) = track_list(film, &mut list);
    if film.len() > MOST || number != 0 {
        // The listing says `too long` and `refused` in the same words.
        return listing(film);
    }
    let tracks: Vec<&[u32]> = list.chunks(8).take(usize::try_from(count).unwrap()).collect();
    let refused = |number| format!("refused {number}");
    let mut text = format!("Which tracks does the movie hold?\n{}", listing(film));
    let total = tracks.iter().find(|track| track[0] == 2).map_or(0, |track| track[3]);
    text += "Which bytes show the second hose?\n";
    text += &bytes(film, 2, total).unwrap_or_else(|number| refused(number) + "\n");
    text += "Does the film time filed add up?\n";
    for track in tracks {
        let line = account(film, track[0], track[3]).unwrap_or_else(refused);
        text += &format!("track {}: {line}\n", track[0]);
    }
    text
}

/// A track of samples of 16 bytes in one chunk, with those durations.
fn short_track(id: u32, durations: &[u32]) -> Track {
    let count = u32::try_from(durations.len()).unwrap();
    Track {
        id,
        duration: durations.iter().sum(),
        stts: durations.iter().map(|duration| (1, *duration)).collect(),
        stsc: vec![(1, count, 1)],
        stsz: Sizes::Common(16, count),
        stco: vec![8],
        ..w_track()
    }
}

/// So many chunks that the slip has more than 65,536 bytes.
fn many_chunks(length: usize) -> Vec<u8> {
    let count = 11_500;
    let track = Track {
        duration: count,
        stts: vec![(count, 1)],
        stsc: vec![(1, 1, 1)],
        stsz: Sizes::Common(20_000, count),
        stco: vec![20_000; usize::try_from(count).unwrap()],
        ..w_track()
    };
    movie(&[track]).file_of(length).bytes()
}

/// The files by name, each with the number that it is refused with by itself.
fn files() -> Vec<(&'static str, u32, Vec<u8>)> {
    let without_duration = [short_track(1, &[24]), short_track(2, &[0, 24]), short_track(3, &[24, 0])];
    vec![
        ("one-sample.mov", 0, movie(&[short_track(2, &[24])]).file().bytes()),
        ("no-samples.mov", 0, movie(&[empty_track(1), empty_track(2)]).file().bytes()),
        ("no-tracks.mov", 0, movie(&[]).file().bytes()),
        ("samples-without-duration.mov", 0, movie(&without_duration).file().bytes()),
        ("mdhd-121.mov", 0, movie(&[Track { duration: 121, ..w_track() }]).file_of(4096).bytes()),
        ("65536-bytes.mov", 0, many_chunks(MOST)),
        ("65537-bytes.mov", 0, many_chunks(MOST + 1)),
    ]
}

fn main() {
    let program = std::env::args().nth(1).expect("hoses_example PROGRAM");
    let film = two_hoses().bytes();
    let mut args = "-\n".to_string();
    let mut text = answers(&film);
    std::fs::write(format!("{program}/stdin"), &film).unwrap();
    for (name, number, bytes) in files() {
        assert_eq!(refusal(&bytes), number, "{name}");
        std::fs::write(format!("{program}/data/{name}"), &bytes).unwrap();
        args += &format!("{name}\n");
        text += &answers(&bytes);
    }
    std::fs::write(format!("{program}/args"), args).unwrap();
    std::fs::write(format!("{program}/stdout"), text).unwrap();
}
