//! Runs the program, and makes files for it.
#![allow(dead_code)]
use std::ffi::OsStr;
use std::io::Write;
use std::path::{Path, PathBuf};
use std::process::{Command, Output, Stdio};

pub const W: &str = "films/w.mov";
pub const HOSES: &str = "films/two-hoses.mov";

/// The program with those arguments, in the repository's top folder.
pub fn program<A: AsRef<OsStr>>(args: &[A]) -> Command {
    let mut command = Command::new(env!("CARGO_BIN_EXE_chaldoref"));
    command.args(args).current_dir("../..").stdin(Stdio::null()).stdout(Stdio::piped()).stderr(Stdio::piped());
    command
}

/// The program with those arguments, run by a shell after it has done something to itself: a limit, or a redirection of what is executed.
pub fn program_after<A: AsRef<OsStr>>(setup: &str, args: &[A], redirection: &str) -> Command {
    let mut command = Command::new("sh");
    command.arg("-c").arg(format!("{setup}\nexec \"$@\" {redirection}")).arg("sh").arg(env!("CARGO_BIN_EXE_chaldoref"));
    command.args(args).current_dir("../..").stdin(Stdio::null()).stdout(Stdio::piped()).stderr(Stdio::piped());
    command
}

/// What a run wrote, and its exit status.
#[derive(Debug, PartialEq)]
pub struct Ran {
    pub out: String,
    pub err: String,
    pub status: i32,
}

impl Ran {
    pub fn new(output: Output) -> Ran {
        let text = |bytes| String::from_utf8(bytes).unwrap();
        Ran { out: text(output.stdout), err: text(output.stderr), status: output.status.code().unwrap() }
    }
}

pub fn run<A: AsRef<OsStr>>(args: &[A]) -> Ran {
    Ran::new(program(args).output().unwrap())
}

/// A run on those bytes as standard input.
pub fn run_on(input: &[u8], args: &[&str]) -> Ran {
    let mut child = program(args).stdin(Stdio::piped()).spawn().unwrap();
    child.stdin.take().unwrap().write_all(input).unwrap();
    Ran::new(child.wait_with_output().unwrap())
}

/// A command line as one text.
pub fn words(line: &str) -> Vec<&str> {
    line.split_whitespace().collect()
}

/// The command line is answered, with that output.
#[track_caller]
pub fn answers(line: &str, out: &str) {
    assert_eq!(run(&words(line)), Ran { out: out.into(), err: String::new(), status: 0 }, "{line}");
}

/// The command line is refused with that text on standard error, and nothing else is written.
#[track_caller]
pub fn refuses(line: &str, err: &str) {
    assert_eq!(run(&words(line)), Ran { out: String::new(), err: err.into(), status: 1 }, "{line}");
}

/// A folder of a test's own, which is removed with all in it.
pub struct Folder(PathBuf);

impl Folder {
    pub fn new(name: &str) -> Folder {
        let path = Path::new(env!("CARGO_TARGET_TMPDIR")).join(format!("{name}-{}", std::process::id()));
        std::fs::create_dir_all(&path).unwrap();
        Folder(path)
    }

    pub fn path(&self, name: impl AsRef<OsStr>) -> PathBuf {
        self.0.join(name.as_ref())
    }

    /// A file with those bytes.
    pub fn file(&self, name: impl AsRef<OsStr>, bytes: &[u8]) -> PathBuf {
        let path = self.path(name);
        std::fs::write(&path, bytes).unwrap();
        path
    }
}

/// A command line, run in that folder.
pub fn run_in(folder: &Folder, line: &str) -> Ran {
    Ran::new(program(&words(line)).current_dir(&folder.0).output().unwrap())
}

impl Drop for Folder {
    fn drop(&mut self) {
        let _ = std::fs::remove_dir_all(&self.0);
    }
}
