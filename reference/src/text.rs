//! Routines as text: request F-1 of document 02, with refusals 11 and 12.

use crate::answer::TextCounts;
use crate::job::{read_job, read_program};
use crate::program_bytes::program_bytes;
use crate::refusal::{self, require, Refusal};
use crate::text_printing::routine_text;
use crate::text_reading::read_routine;

/// Reads a routine and writes the bytes of its program.
pub fn read_text(text: &[u8], out: &mut [u8]) -> Result<TextCounts, Refusal> {
    let program = read_routine(text)?;
    let bytes = program_bytes(&program)?;
    // The reader of jobs says what 4 to 6 would refuse.
    read_program(&bytes, program.len()).map_err(|_| refusal::TEXT)?;
    let written = write_to_front(&bytes, out)?;
    Ok(TextCounts { bytes: written, instructions: program.len() })
}

/// Writes the program of a job as text and returns the count of its bytes.
pub fn print_text(job: &[u8], out: &mut [u8]) -> Result<usize, Refusal> {
    let job = read_job(job)?;
    write_to_front(routine_text(&job.program).as_bytes(), out)
}

/// Bytes past those written keep their contents.
fn write_to_front(bytes: &[u8], out: &mut [u8]) -> Result<usize, Refusal> {
    require(out.len() >= bytes.len(), refusal::OUTPUT_AREA)?;
    out[..bytes.len()].copy_from_slice(bytes);
    Ok(bytes.len())
}
