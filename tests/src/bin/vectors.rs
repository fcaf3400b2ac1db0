//! Runs every vector of a file through the library: the answer, the written words, and every word
//! that must keep its contents. Listings are run against the reference, since the library has none.

use std::process::ExitCode;

use checker_tests::calls::Operation;
use checker_tests::text::calls::TextOperation;
use checker_tests::vector_file::{parse_file, Checked, Vector};

/// What a vector can call, with its name in the output.
const ANSWERED: [(Checked, &str); 7] = [
    (Checked::Library(Operation::Run), "run with the library"),
    (Checked::Library(Operation::Plain), "plain with the library"),
    (Checked::Library(Operation::Pair), "pair with the library"),
    (Checked::Library(Operation::Load), "test load with the library"),
    (Checked::LibraryText(TextOperation::Read), "read with the library"),
    (Checked::LibraryText(TextOperation::Print), "print with the library"),
    (Checked::ReferenceListing, "listing with the reference (the library has no listing)"),
];

fn main() -> ExitCode {
    let Some(path) = std::env::args_os().nth(1) else {
        eprintln!("usage: vectors FILE");
        return ExitCode::from(2);
    };
    let text = match std::fs::read_to_string(&path) {
        Ok(text) => text,
        Err(error) => {
            eprintln!("cannot read {}: {error}", path.display());
            return ExitCode::from(2);
        }
    };
    match parse_file(&text) {
        Ok(vectors) => check_all(&vectors),
        Err(error) => {
            eprintln!("{error}");
            ExitCode::from(2)
        }
    }
}

fn check_all(vectors: &[Vector]) -> ExitCode {
    let mut checked = Vec::new();
    let mut differing = 0;
    for vector in vectors {
        match vector.check() {
            Ok(by) => checked.push(by),
            Err(difference) => {
                differing += 1;
                println!("vector {}: {difference}", vector.name());
            }
        }
    }
    println!("vectors: {}; differ: {differing}", vectors.len());
    for (by, name) in ANSWERED {
        let agreeing = checked.iter().filter(|&&one| one == by).count();
        if agreeing > 0 {
            println!("agree: {agreeing} {name}");
        }
    }
    if differing == 0 && !vectors.is_empty() {
        ExitCode::SUCCESS
    } else {
        ExitCode::FAILURE
    }
}
