//! Reading files and standard input.
use crate::closed;
use chaldoref::MAX_FILE_BYTES;
use std::ffi::OsStr;
use std::fs::{File, Metadata};
use std::io::{self, Read};
use std::os::fd::AsFd;

/// The name that stands for standard input, or standard output.
pub const STANDARD: &str = "-";

/// One byte more than is accepted, so that a file that is too long is refused for its length.
pub const MOST_BYTES: u64 = MAX_FILE_BYTES + 1;

/// What a file to be read is called in messages.
pub fn called(name: &OsStr) -> String {
    if name == STANDARD {
        return "standard input".into();
    }
    named(name)
}

/// A file's name in messages.
pub fn named(name: &OsStr) -> String {
    if name.is_empty() {
        return "an empty name".into();
    }
    shown(name)
}

/// A word of the command line in messages. A control character, which could act on the terminal, is a question mark.
pub fn shown(word: &OsStr) -> String {
    word.to_string_lossy().replace(char::is_control, "?")
}

/// All bytes of a file, or the first ones of a file that is too long.
pub fn read(name: &OsStr) -> io::Result<Vec<u8>> {
    all(open(name)?)
}

/// The same of a file that is open. They are read into one buffer, which is made for the length that the system tells,
/// if it does, so that it need not grow.
pub fn all(file: File) -> io::Result<Vec<u8>> {
    let length = file.metadata()?.len().min(MOST_BYTES);
    let mut bytes = Vec::new();
    bytes.try_reserve_exact(usize::try_from(length).unwrap_or(usize::MAX))?;
    file.take(MOST_BYTES).read_to_end(&mut bytes)?;
    Ok(bytes)
}

pub fn open(name: &OsStr) -> io::Result<File> {
    if name == STANDARD {
        if closed::input() {
            return Err(closed::error());
        }
        return Ok(File::from(io::stdin().as_fd().try_clone_to_owned()?));
    }
    File::open(name)
}

/// What the system tells of a file to be read.
pub fn metadata(name: &OsStr) -> io::Result<Metadata> {
    if name == STANDARD {
        return open(name)?.metadata();
    }
    std::fs::metadata(name)
}

/// The bytes of a slip. The file has them, or it has hex text that says them: a slip begins with the byte 01, and hex text with the digit 0.
/// A file that begins otherwise is taken for text if it is nothing else.
pub fn slip(file: Vec<u8>) -> io::Result<Vec<u8>> {
    let first = file.iter().find(|byte| !byte.is_ascii_whitespace());
    if first == Some(&b'0') || file.iter().all(|byte| byte.is_ascii_graphic() || byte.is_ascii_whitespace()) {
        return from_hex(&file);
    }
    Ok(file)
}

/// The bytes that hex text says: pairs of digits, with white space and commas between them, and 0x before them or not.
pub fn from_hex(text: &[u8]) -> io::Result<Vec<u8>> {
    let mut bytes = Vec::new();
    bytes.try_reserve_exact(text.len() / 2)?;
    let mut at = 0;
    while let Some(c) = text.get(at) {
        if c.is_ascii_whitespace() || *c == b',' {
            at += 1;
            continue;
        }
        if matches!(text.get(at..at + 2), Some(b"0x" | b"0X")) {
            at += 2;
        }
        bytes.push(text.get(at..at + 2).and_then(byte).ok_or_else(|| not_hex(text, at))?);
        at += 2;
    }
    Ok(bytes)
}

/// Says where the text has no pair of digits: lines and columns count from 1. A letter that is often taken for a digit is named.
fn not_hex(text: &[u8], at: usize) -> io::Error {
    let before = &text[..at];
    let line = 1 + before.iter().filter(|c| **c == b'\n').count();
    let column = 1 + before.iter().rev().take_while(|c| **c != b'\n').count();
    let pair = text.get(at..).unwrap_or_default().iter().take(2);
    let why = pair.copied().find_map(mistaken).map_or(String::new(), |words| format!(": {words}"));
    let words = format!("line {line}, column {column}: not a pair of hex digits{why}");
    io::Error::new(io::ErrorKind::InvalidData, words)
}

/// What a character is that looks like a digit.
fn mistaken(c: u8) -> Option<&'static str> {
    match c {
        b'O' | b'o' => Some("there is the letter O, and the digit is 0"),
        b'l' => Some("there is the letter l, and the digit is 1"),
        b'I' | b'i' => Some("there is the letter I, and the digit is 1"),
        b'S' | b's' => Some("there is the letter S, and the digit is 5"),
        _ => None,
    }
}

/// The byte of two hex digits.
fn byte(pair: &[u8]) -> Option<u8> {
    let [high, low] = pair else { return None };
    let digit = |c: &u8| char::from(*c).to_digit(16);
    u8::try_from(digit(high)? << 4 | digit(low)?).ok()
}

#[cfg(test)]
mod tests {
    use super::*;

    #[test]
    fn hex() {
        assert_eq!(from_hex(b"01 d8\n04D8\t\n").ok(), Some(vec![0x01, 0xd8, 0x04, 0xd8]));
        assert_eq!(from_hex(b"").ok(), Some(vec![]));
        for text in [&b"0x01, 0xD8,0x04\n0XD8"[..], b"01,d8,04,d8,", b"0x01D804D8"] {
            assert_eq!(from_hex(text).ok(), Some(vec![0x01, 0xd8, 0x04, 0xd8]));
        }
        for text in [&b"0"[..], b"0 1", b"0x", b"0x 01", b"0x0x01", b"01;02", b"\xff\xff"] {
            assert!(from_hex(text).is_err());
        }
    }

    #[test]
    fn what_is_not_hex_has_its_line_and_column() {
        for (text, line, column) in
            [("0x", 1, 3), ("01 0", 1, 4), ("01\r\n02 0g", 2, 4), ("\n\n 1", 3, 2), ("010", 1, 3)]
        {
            let said = format!("line {line}, column {column}: not a pair of hex digits");
            assert_eq!(from_hex(text.as_bytes()).unwrap_err().to_string(), said, "{text}");
        }
    }

    #[test]
    fn letters_that_look_like_digits() {
        for (text, words) in [
            ("01 O1", ": there is the letter O, and the digit is 0"),
            ("01 0o", ": there is the letter O, and the digit is 0"),
            ("01 l0", ": there is the letter l, and the digit is 1"),
            ("01 4I", ": there is the letter I, and the digit is 1"),
            ("01 4g", ""),
        ] {
            let said = format!("line 1, column 4: not a pair of hex digits{words}");
            assert_eq!(from_hex(text.as_bytes()).unwrap_err().to_string(), said, "{text}");
        }
    }

    #[test]
    fn raw_bytes_and_text_are_told_apart() {
        let read = |file: &[u8]| slip(file.to_vec()).ok();
        assert_eq!(read(&[0x01, 0x30, 0x31]), Some(vec![0x01, 0x30, 0x31]));
        assert_eq!(read(b" \n01 02"), Some(vec![1, 2]));
        assert_eq!(read(b"11 02\n"), Some(vec![0x11, 2]));
        assert_eq!(read(b"\n"), Some(vec![]));
        assert_eq!(read(b""), Some(vec![]));
        assert_eq!(read(&[0x02, 0x41]), Some(vec![0x02, 0x41]));
        assert_eq!(read(&[0x41, 0x80]), Some(vec![0x41, 0x80]));
        for text in [&b"O1 02"[..], b"01 02 \xa0", b"a slip"] {
            assert_eq!(read(text), None);
        }
    }
}
