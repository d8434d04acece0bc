//! Programs in C and C++ with the header and the library that the crate is linked with.
#![allow(dead_code)] // Each test takes what it needs.
use std::io::ErrorKind;
use std::path::{Path, PathBuf};
use std::process::Command;

/// No warning is let pass.
const STRICT: [&str; 4] = ["-Wall", "-Wextra", "-pedantic", "-Werror"];

/// A C program, as C99.
pub fn c(source: &str, name: &str) -> PathBuf {
    program(&["cc", "-std=c99"], source, name).expect("cc is installed")
}

/// The same source as C++; `None`, which is said, where there is no compiler for it.
pub fn cpp(source: &str, name: &str) -> Option<PathBuf> {
    let program = program(&["g++", "-std=c++17", "-x", "c++"], source, name);
    if program.is_none() {
        eprintln!("g++ is not installed: {source} is not tried as C++");
    }
    program
}

fn program(compiler: &[&str], source: &str, name: &str) -> Option<PathBuf> {
    let program = Path::new(env!("CARGO_TARGET_TMPDIR")).join(name);
    let compiled = Command::new(compiler[0])
        .args(&compiler[1..])
        .args(STRICT)
        .args(["-I../../include", source, "-x", "none", "-L", env!("CHALDOREF_LINKED_DIR"), "-lchaldoref", "-o"])
        .arg(&program)
        .status();
    match compiled {
        Err(error) if error.kind() == ErrorKind::NotFound => None,
        status => {
            assert!(status.unwrap().success(), "{source} does not compile with {compiler:?}");
            Some(program)
        }
    }
}
