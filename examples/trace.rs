//! trace.rs: prints the whole trace of a job's mispredicting run, however long it is, and the stores outside memory that are
//! remembered at its stop.
//!
//!   rustc -O examples/trace.rs -L crates/checker_c/out -l static=checker_c -o trace
//!   ./trace JOB.mua
//!
//! The lines of the trace are those of "check JOB.mua", which shows 512 observations at most; then comes the stop, the number of
//! remembered stores, and of each the address and the value. Every instruction takes 1 of the window. A refused job is answered by
//! "refused" and its number. The exit status is 0 if a trace was printed, 1 if the job is refused or cannot be read, 2 for a wrong call.

mod checker;

use std::io::{self, BufWriter, Write};
use std::process::ExitCode;

use checker::{checker_run, RunAnswer, END_WORDS_MAX, TRACE_WORDS_MAX, UNIT_COSTS, WORK_WORDS};

const KINDS: [&str; 5] = ["start", "rollback", "pc", "load", "store"];
const STOPS: [&str; 4] = ["finished", "spent", "trace full", "outside full"];
const REGISTERS: usize = 16;

/// What a run has left: its answer, its trace area and its end area.
struct Ran {
    answer: RunAnswer,
    trace: Vec<u64>,
    end: Vec<u64>,
}

/// The run of a job in areas that suffice for every one, or the number of the refusal.
fn run(job: &[u8]) -> Result<Ran, u32> {
    let mut answer = RunAnswer::ZERO;
    let mut trace = vec![0; TRACE_WORDS_MAX];
    let mut end = vec![0; END_WORDS_MAX];
    let mut work = vec![0; WORK_WORDS];
    // Safety: each pointer and length is that of a slice or a vector, none of them null, and exclusive references do not overlap.
    let refused = unsafe {
        checker_run(
            job.as_ptr(),
            job.len(),
            UNIT_COSTS.as_ptr(),
            UNIT_COSTS.len(),
            trace.as_mut_ptr(),
            trace.len(),
            end.as_mut_ptr(),
            end.len(),
            work.as_mut_ptr(),
            work.len(),
            &mut answer,
        )
    };
    if refused == 0 {
        Ok(Ran { answer, trace, end })
    } else {
        Err(refused)
    }
}

/// A number of two bytes, so many bytes before the job's end.
fn number_at(job: &[u8], before_end: usize) -> usize {
    let at = job.len() - before_end;
    usize::from(job[at]) + 256 * usize::from(job[at + 1])
}

/// The job was not refused, so that its trailer has the number of instructions, which stands for the end of the routine, and of cells.
fn print(job: &[u8], ran: &Ran) -> io::Result<()> {
    let (instructions, cells) = (number_at(job, 12) as u64, number_at(job, 10));
    let mut out = BufWriter::new(io::stdout().lock());
    for observation in ran.trace.chunks_exact(2).take(ran.answer.observations as usize) {
        match (KINDS[observation[0] as usize], observation[1]) {
            ("pc", value) if value == instructions => writeln!(out, "pc end")?,
            (kind, value) => writeln!(out, "{kind} {value}")?,
        }
    }
    writeln!(out, "stop {}", STOPS[ran.answer.stop as usize])?;
    let table = &ran.end[REGISTERS + cells..];
    writeln!(out, "outside {}", table[0])?;
    for store in table[1..].chunks_exact(2).take(table[0] as usize) {
        writeln!(out, "{} holds {}", store[0], store[1])?;
    }
    out.flush()
}

fn main() -> ExitCode {
    let mut words = std::env::args_os().skip(1);
    let (Some(path), None) = (words.next(), words.next()) else {
        eprintln!("usage: trace JOB.mua");
        return ExitCode::from(2);
    };
    let job = match std::fs::read(&path) {
        Ok(job) => job,
        Err(error) => {
            eprintln!("{}: {error}", path.to_string_lossy());
            return ExitCode::FAILURE;
        }
    };
    match run(&job) {
        Ok(ran) => match print(&job, &ran) {
            Ok(()) => ExitCode::SUCCESS,
            Err(error) => {
                eprintln!("standard output: {error}");
                ExitCode::FAILURE
            }
        },
        Err(refused) => {
            println!("refused {refused}");
            ExitCode::FAILURE
        }
    }
}
