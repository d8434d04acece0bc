//! The films that are named: as arguments, in a list, by the folders that they are in.
use crate::input;
use std::ffi::{OsStr, OsString};
use std::fs;
use std::io;
use std::os::unix::ffi::{OsStrExt, OsStringExt};
use std::path::Path;

/// The ends of the names of films that are looked for in a folder.
pub const ENDINGS: [&str; 4] = ["mov", "mp4", "m4v", "qt"];

/// A file that has names of films: a line each, or each before a NUL.
pub struct List {
    pub name: OsString,
    pub nul: bool,
}

/// The films, in the order in which they are named; those of a folder by their names.
#[derive(Default)]
pub struct Films {
    pub names: Vec<OsString>,
    /// Folders that cannot be read.
    pub unread: Vec<(OsString, io::Error)>,
    /// Folders that have files which are not named as films, and how many.
    pub others: Vec<(OsString, u64)>,
}

impl Films {
    /// The films of these names. A folder stands for the films in it and in the folders in it.
    pub fn named(names: impl IntoIterator<Item = OsString>) -> Films {
        let mut films = Films::default();
        for name in names {
            if name == input::STANDARD || !Path::new(&name).is_dir() {
                films.names.push(name);
                continue;
            }
            let others = films.walk(Path::new(&name));
            if others > 0 {
                films.others.push((name, others));
            }
        }
        films
    }

    /// Adds the films in a folder, and tells how many other files there are. A link to a folder is not followed, so that the walk ends.
    fn walk(&mut self, folder: &Path) -> u64 {
        let read = fs::read_dir(folder).and_then(Iterator::collect::<io::Result<Vec<_>>>);
        let mut entries = match read {
            Ok(entries) => entries,
            Err(error) => {
                self.unread.push((folder.into(), error));
                return 0;
            }
        };
        entries.sort_by_key(fs::DirEntry::file_name);
        let mut others = 0;
        for entry in entries {
            let path = entry.path();
            if entry.file_type().is_ok_and(|kind| kind.is_dir()) {
                others += self.walk(&path);
            } else if is_film(&path) && !path.is_dir() {
                self.names.push(path.into());
            } else {
                others += 1;
            }
        }
        others
    }
}

/// Whether a file is named as a film.
fn is_film(path: &Path) -> bool {
    path.extension().is_some_and(|end| ENDINGS.iter().any(|film| end.eq_ignore_ascii_case(film)))
}

impl List {
    /// The names in it. None is empty, and none stands for standard input.
    pub fn names(&self) -> io::Result<Vec<OsString>> {
        Ok(names_in(&input::read(&self.name)?, self.nul))
    }
}

fn names_in(bytes: &[u8], nul: bool) -> Vec<OsString> {
    let end = if nul { 0 } else { b'\n' };
    let names = bytes.split(|byte| *byte == end).filter(|name| !name.is_empty());
    names.map(|name| if name == input::STANDARD.as_bytes() { OsString::from("./-") } else { owned(name) }).collect()
}

fn owned(name: &[u8]) -> OsString {
    OsString::from_vec(name.to_vec())
}

/// A name as a field of comma-separated values: in quotes where it has a comma, a quote or the end of a line.
pub fn csv_field(name: &OsStr) -> Vec<u8> {
    let bytes = name.as_bytes();
    if !bytes.iter().any(|byte| matches!(byte, b',' | b'"' | b'\n' | b'\r')) {
        return bytes.to_vec();
    }
    let inside = bytes.iter().flat_map(|byte| if *byte == b'"' { vec![b'"'; 2] } else { vec![*byte] });
    [b'"'].into_iter().chain(inside).chain([b'"']).collect()
}

#[cfg(test)]
mod tests {
    use super::*;

    #[test]
    fn lists() {
        let names = |bytes: &[u8], nul| {
            names_in(bytes, nul).into_iter().map(|name| name.into_string().unwrap()).collect::<Vec<_>>()
        };
        assert_eq!(names(b"a.mov\n\nb c.mov\n-\n", false), ["a.mov", "b c.mov", "./-"]);
        assert_eq!(names(b"a\nb\0c\0", true), ["a\nb", "c"]);
        assert!(names(b"", false).is_empty() && names(b"\0", true).is_empty());
    }

    #[test]
    fn fields() {
        let field = |name: &str| String::from_utf8(csv_field(OsStr::new(name))).unwrap();
        assert_eq!(
            [field("a b.mov"), field("a,b"), field("a\"b"), field("")],
            ["a b.mov", "\"a,b\"", "\"a\"\"b\"", ""]
        );
        assert_eq!(field("a\nb"), "\"a\nb\"");
    }

    #[test]
    fn names_of_films() {
        for name in ["a.mov", "a/B.MP4", "x.y.qt", "c.m4v"] {
            assert!(is_film(Path::new(name)), "{name}");
        }
        for name in ["a.txt", "mov", ".mov", "a.mov.slip", "a."] {
            assert!(!is_film(Path::new(name)), "{name}");
        }
    }
}
