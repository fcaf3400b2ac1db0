//! Prints the listing of the job file named by the first argument; a missing file is an empty job.

use std::io::Write;
use std::process::ExitCode;

fn main() -> ExitCode {
    let Some(path) = std::env::args_os().nth(1) else {
        eprintln!("usage: check-box-reference JOB");
        return ExitCode::FAILURE;
    };
    let job = std::fs::read(path).unwrap_or_default();
    match std::io::stdout().write_all(&check_box_reference::listing(&job)) {
        Ok(()) => ExitCode::SUCCESS,
        Err(_) => ExitCode::FAILURE,
    }
}
