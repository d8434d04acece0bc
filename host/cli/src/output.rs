//! Writing to standard output and to files.
use crate::closed;
use std::fs::{self, File, Permissions};
use std::io::{self, ErrorKind, Read, Write};
use std::os::fd::AsFd;
use std::path::{Path, PathBuf};

/// As many links as the system follows.
const MOST_LINKS: usize = 40;

/// Standard output, or nothing where it is closed. Rust's own handle takes what a closed one does not write for written.
pub struct Standard(Option<File>);

pub fn standard() -> io::Result<Standard> {
    if closed::output() {
        return Ok(Standard(None));
    }
    Ok(Standard(Some(File::from(io::stdout().as_fd().try_clone_to_owned()?))))
}

impl Write for Standard {
    fn write(&mut self, bytes: &[u8]) -> io::Result<usize> {
        self.0.as_mut().ok_or_else(closed::error)?.write(bytes)
    }

    fn flush(&mut self) -> io::Result<()> {
        Ok(())
    }
}

/// The types of atoms that films begin with.
const FIRST_ATOMS: [&[u8; 4]; 9] = [b"ftyp", b"moov", b"mdat", b"free", b"skip", b"wide", b"pnot", b"moof", b"styp"];

/// Whether a file that is there begins as films do. What is no regular file is none.
pub fn is_film(name: &Path) -> bool {
    let header = || {
        let mut header = [0; 8];
        File::open(name).and_then(|mut file| file.read_exact(&mut header)).map(|()| header)
    };
    let is_first = |header: [u8; 8]| FIRST_ATOMS.iter().any(|kind| header[4..] == **kind);
    fs::metadata(name).is_ok_and(|there| there.is_file()) && header().is_ok_and(is_first)
}

/// Writes bytes to a file, as `replace_with` does.
pub fn replace(name: &Path, bytes: &[u8]) -> io::Result<()> {
    replace_with(name, |file| file.write_all(bytes))
}

/// Writes a file. It is written beside its place and then put there, so that what fails leaves what was there whole.
pub fn replace_with(name: &Path, write: impl FnOnce(&mut File) -> io::Result<()>) -> io::Result<()> {
    let permissions = match fs::metadata(name) {
        Ok(there) => {
            // What must not be written must not be replaced either.
            let mut file = File::options().write(true).open(name)?;
            if !there.is_file() {
                // A device or a pipe keeps nothing.
                return write(&mut file);
            }
            Some(there.permissions())
        }
        Err(error) if error.kind() == ErrorKind::NotFound => None,
        Err(error) => return Err(error),
    };
    let place = past_links(name);
    let (beside, file) = new_beside(&place)?;
    let put = fill(file, write, permissions).and_then(|()| fs::rename(&beside, &place));
    if put.is_err() {
        // The error that counts is the first.
        let _ = fs::remove_file(&beside);
    }
    put
}

/// Where the file of that name is, or is to be: a link stays, and what it leads to is replaced.
fn past_links(name: &Path) -> PathBuf {
    let mut place = name.to_owned();
    for _ in 0..MOST_LINKS {
        match fs::read_link(&place) {
            Ok(link) => place.set_file_name(link),
            Err(_) => break,
        }
    }
    place
}

/// A new file in the same folder, under a name that no file has.
fn new_beside(place: &Path) -> io::Result<(PathBuf, File)> {
    for n in 0..u32::MAX {
        let path = place.with_file_name(format!(".chaldoref-{}-{n}", std::process::id()));
        match File::create_new(&path) {
            Err(error) if error.kind() == ErrorKind::AlreadyExists => (),
            made => return Ok((path, made?)),
        }
    }
    Err(ErrorKind::AlreadyExists.into())
}

/// Writes a new file through to the disk.
fn fill(
    mut file: File,
    write: impl FnOnce(&mut File) -> io::Result<()>,
    permissions: Option<Permissions>,
) -> io::Result<()> {
    if let Some(permissions) = permissions {
        file.set_permissions(permissions)?;
    }
    write(&mut file)?;
    file.sync_all()
}
