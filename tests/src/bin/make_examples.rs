//! Writes the example job files and texts to the folder given, or to examples/ of the repository.

use std::path::PathBuf;
use std::process::ExitCode;

use checker_tests::examples;

fn main() -> ExitCode {
    let folder = match std::env::args_os().nth(1) {
        Some(folder) => PathBuf::from(folder),
        None => PathBuf::from(env!("CARGO_MANIFEST_DIR")).join("../examples"),
    };
    for (name, content) in examples::files().into_iter().chain(examples::texts()) {
        let path = folder.join(name);
        if let Err(error) = std::fs::write(&path, &content) {
            eprintln!("cannot write {}: {error}", path.display());
            return ExitCode::FAILURE;
        }
        println!("{} {} bytes", path.display(), content.len());
    }
    ExitCode::SUCCESS
}
