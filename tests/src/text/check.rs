//! One case checked: the call of library and reference compared whole, then what is known of the case,
//! then, for a job that was printed, that its text reads back as its program.

use crate::job_file::{field, Field};
use crate::lend::Fill;
use crate::random::Random;
use crate::text::calls::{TextCall, TextOperation, TextOutcome};
use crate::text::cases::{Known, TextCase};
use crate::text::lines::{assemble, parts_of, random_layout};
use crate::text::tally::TextTally;

const OUTPUT_AREA: u32 = 12;

/// Says what differed or what is not as it is known to be.
pub fn check_text_case(
    case: &TextCase,
    margin: usize,
    tally: &mut TextTally,
) -> Result<(), String> {
    tally.count_case(case);
    let fill = Fill { salt: case.salt, margin };
    let call =
        TextCall { operation: case.operation, input: &case.input, length: case.length, fill };
    let outcome = compared(&call, tally)?;
    is_as_known(&outcome, &case.known, case.length)?;
    if case.operation == TextOperation::Print && outcome.number == 0 {
        reads_back(case, &outcome, fill, tally)?;
    }
    Ok(())
}

/// The library's outcome, if it is the reference's in every byte.
fn compared(call: &TextCall, tally: &mut TextTally) -> Result<TextOutcome, String> {
    let outcome = call.by_library();
    match outcome.difference(&call.by_reference()) {
        Some(difference) => Err(difference),
        None => {
            tally.count_outcome(call.input, &outcome);
            Ok(outcome)
        }
    }
}

/// A statement about the library alone, as the next one.
fn is_as_known(outcome: &TextOutcome, known: &Known, length: usize) -> Result<(), String> {
    let holds = match known {
        Known::Nothing => true,
        Known::Refused(number) => outcome.number == *number,
        Known::Written(bytes, _) if length < bytes.len() => outcome.number == OUTPUT_AREA,
        Known::Written(bytes, instructions) => {
            outcome.number == 0
                && outcome.written() == bytes
                && outcome.answer()[0] == bytes.len() as u64
                && outcome.answer().get(1).is_none_or(|&count| count == *instructions as u64)
        }
    };
    if holds {
        Ok(())
    } else {
        Err(format!("{}: the case is known to give another answer", outcome.operation.name()))
    }
}

/// Request F-1's claim: reading the printed text restores the program's bytes. The same is tried with
/// other spaces, with remarks and with blank lines, which change no meaning.
fn reads_back(
    case: &TextCase,
    printed: &TextOutcome,
    fill: Fill,
    tally: &mut TextTally,
) -> Result<(), String> {
    let job = &case.input;
    let exact = usize::from(field(job, Field::StateOffset));
    let instructions = usize::from(field(job, Field::Instructions));
    let known = Known::Written(job[..exact].to_vec(), instructions);
    let text = printed.written();
    let mut random = Random::new(case.salt);
    let layout = random_layout(&mut random);
    let respaced = assemble(&parts_of(text), layout, &mut random);
    for input in [text, &respaced] {
        let length = exact + random.pick(&[0, 0, 1, 9]);
        let call = TextCall { operation: TextOperation::Read, input, length, fill };
        is_as_known(&compared(&call, tally)?, &known, length)
            .map_err(|error| format!("read back, {error}"))?;
        tally.read_back += 1;
    }
    Ok(())
}
