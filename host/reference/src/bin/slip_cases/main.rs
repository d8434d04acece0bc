//! The cases of crates/slip_vectors and its lines, from the reference.
//!
//! Writes each case to the folder that is its first argument, and the names, one to a line, to the file that is its second. The lines go to
//! standard output. The name of a case in which something is read begins with the answer that its maker means it to get: `good`, `broken-at-` or
//! `short-at-` and the place for a number, the refusal's number for a slip, and with 17 its place; after `wide-` for a number below 2^64, `any-` for
//! the reader of both forms. The reference must agree, so that a case which
//! tests another thing than its name says is not kept by mistake.
mod base;
mod faults;
mod forms;
mod numbers;
mod slips;
mod writes;

use base::Cases;

/// The most bytes that the program reads of a case.
const CASE: usize = 4096;

fn main() {
    let arguments: Vec<String> = std::env::args().collect();
    let [_, folder, names] = &arguments[..] else {
        panic!("slip_cases FOLDER NAMES");
    };
    let mut cases = Cases::default();
    slips::cases(&mut cases);
    faults::cases(&mut cases);
    numbers::cases(&mut cases);
    writes::cases(&mut cases);
    forms::cases(&mut cases);

    let mut args = String::new();
    for (name, case) in cases.list {
        let bytes = case.bytes();
        assert!(bytes.len() <= CASE, "{name}");
        assert!(!args.lines().any(|other| other == name), "{name} twice");
        std::fs::write(format!("{folder}/{name}"), bytes).unwrap();
        println!("{name}{}", case.line());
        args += &format!("{name}\n");
    }
    std::fs::write(names, args).unwrap();
}
