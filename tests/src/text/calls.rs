//! One call of reading or printing, made of the library or of the reference, with everything it left.

use check_box_reference as reference;

use crate::calls::exactly;
use crate::lend::{Area, Bytes, Fill};
use crate::library::{self, PRINT_ANSWER, READ_ANSWER};

/// More bytes than any text reads to and than any job prints as.
const MOST_BYTES: usize = 100_000;

#[derive(Clone, Copy, PartialEq, Eq, Debug)]
pub enum TextOperation {
    Read,
    Print,
}

/// The input is a text to read or a job to print; the length is that of the output area in bytes.
#[derive(Clone, Copy)]
pub struct TextCall<'a> {
    pub operation: TextOperation,
    pub input: &'a [u8],
    pub length: usize,
    pub fill: Fill,
}

/// What a call returned and left.
#[derive(PartialEq, Eq)]
pub struct TextOutcome {
    pub operation: TextOperation,
    pub number: u32,
    pub answer: Area,
    pub out: Area<u8>,
    pub input_kept: bool,
}

impl TextOperation {
    pub fn name(self) -> &'static str {
        match self {
            TextOperation::Read => "checker_read_text",
            TextOperation::Print => "checker_print_text",
        }
    }

    pub fn answer_words(self) -> usize {
        match self {
            TextOperation::Read => READ_ANSWER,
            TextOperation::Print => PRINT_ANSWER,
        }
    }

    fn by_reference(self, input: &[u8], out: &mut [u8]) -> Result<Vec<u64>, u32> {
        match self {
            TextOperation::Read => reference::read_text(input, out)
                .map(|counts| vec![counts.bytes as u64, counts.instructions as u64]),
            TextOperation::Print => {
                reference::print_text(input, out).map(|bytes| vec![bytes as u64])
            }
        }
    }

    /// The bytes that the reference writes where there is room enough, or the number of the refusal.
    pub fn written(self, input: &[u8]) -> Result<Vec<u8>, u32> {
        let mut out = vec![0; MOST_BYTES];
        let answer = self.by_reference(input, &mut out)?;
        out.truncate(answer[0] as usize);
        Ok(out)
    }
}

impl TextCall<'_> {
    /// Everything as it stands before the call.
    fn prepared(&self) -> TextOutcome {
        TextOutcome {
            operation: self.operation,
            number: 0,
            answer: Area::filled(self.operation.answer_words(), self.fill),
            out: Area::filled(self.length, self.fill),
            input_kept: true,
        }
    }

    pub fn by_library(&self) -> TextOutcome {
        let mut outcome = self.prepared();
        let input = Bytes::copied(self.input, self.fill);
        let (out, answer) = (outcome.out.lent(), outcome.answer.lent());
        outcome.number = match self.operation {
            TextOperation::Read => library::read_text(input.lent(), out, exactly(answer)),
            TextOperation::Print => library::print_text(input.lent(), out, exactly(answer)),
        };
        outcome.input_kept = input.is_unchanged(self.input);
        outcome
    }

    pub fn by_reference(&self) -> TextOutcome {
        let mut outcome = self.prepared();
        match self.operation.by_reference(self.input, outcome.out.lent()) {
            Ok(words) => outcome.answer.lent().copy_from_slice(&words),
            Err(number) => outcome.number = number,
        }
        outcome
    }
}

impl TextOutcome {
    pub fn answer(&self) -> &[u64] {
        self.answer.content()
    }

    /// The bytes that a call which was not refused says it wrote, as far as the area reaches.
    pub fn written(&self) -> &[u8] {
        let area = self.out.content();
        &area[..area.len().min(self.answer()[0] as usize)]
    }

    /// Says what differs from the expected outcome; none if they are equal.
    pub fn difference(&self, expected: &TextOutcome) -> Option<String> {
        let name = self.operation.name();
        if self.number != expected.number {
            return Some(format!("{name} returned {}, not {}", self.number, expected.number));
        }
        if !self.input_kept {
            return Some(format!("{name} changed the bytes of its input"));
        }
        let answer = self.answer.difference(&expected.answer).map(|text| ("answer", text));
        let out = || self.out.difference(&expected.out).map(|text| ("output", text));
        answer.or_else(out).map(|(area, text)| format!("{name}, {area}: {text}"))
    }
}
