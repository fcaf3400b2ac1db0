//! What the program `crates/cases` has to print is what this implementation prints for the same cases.

use std::path::PathBuf;
use std::process::Command;

#[test]
fn stored_output_is_that_of_the_reference() {
    let path = PathBuf::from(env!("CARGO_MANIFEST_DIR")).join("../crates/cases/stdout");
    let stored = std::fs::read_to_string(path).expect("the stored output of crates/cases");
    let printed =
        Command::new(env!("CARGO_BIN_EXE_worked-cases")).output().expect("the program runs");
    assert!(printed.status.success());
    assert_eq!(String::from_utf8(printed.stdout).expect("text"), stored);
}
