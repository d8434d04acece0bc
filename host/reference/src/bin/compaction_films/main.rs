//! The films of crates/compaction_vectors and its lines, from the reference.
//!
//! Writes each film to the folder that is its first argument: the length of its file in 64 bits, 0 where it is lent whole, the length of the room in 32
//! bits, and what is lent. The names, one to a line, go to the file that is its second, and the lines to standard output. A film that is meant to be
//! refused has the number before its name: the reference must agree.
mod films;

use films::{Case, Films, Lent};
use reference::movie::compact;

/// What every byte of a room holds before the film is compacted.
const BYTE: u8 = 0xEE;

/// The longest room.
const BYTES: usize = 4096;

/// What the reference answers, and the room after it.
fn answer(case: &Case) -> ((u32, u64), Vec<u8>) {
    let mut room = vec![BYTE; case.room];
    let answer = match &case.lent {
        Lent::Whole(film) => compact(film, &mut room),
        Lent::Alone(film) => compact(film, &mut room),
    };
    (answer, room)
}

fn line(number: u32, length: u64, room: &[u8]) -> String {
    let room: String = room.iter().map(|byte| format!("{byte:02x}")).collect();
    match number {
        0 => format!("length {length}, room {room}"),
        _ => format!("refused {number}, room {room}"),
    }
}

fn main() {
    let arguments: Vec<String> = std::env::args().collect();
    let [_, folder, names] = &arguments[..] else {
        panic!("compaction_films FOLDER NAMES");
    };
    let mut args = String::new();
    for case in Films::all() {
        let name = case.file_name();
        let ((number, length), room) = answer(&case);
        assert_eq!(number, case.refused, "{name}");
        let moov = case.moov();
        assert_eq!(number == 0 && room[..moov.len()] != moov, case.freed, "{name}");
        let bytes = case.bytes();
        assert!(bytes.len() <= 65_536 && room.len() <= BYTES, "{name}");
        std::fs::write(format!("{folder}/{name}"), bytes).unwrap();
        args += &format!("{name}\n");
        println!("{name}: {}", line(number, length, &room));
    }
    std::fs::write(names, args).unwrap();
}
