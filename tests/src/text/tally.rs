//! Counts of what was read and printed.

use crate::tally::counts;
use crate::text::calls::{TextOperation, TextOutcome};
use crate::text::cases::{TextCase, KINDS};
use crate::text::faults::FAULTS;

/// The answers that each operation can give.
const READ_NUMBERS: [u32; 3] = [0, 11, 12];
const PRINT_NUMBERS: [u32; 10] = [0, 1, 2, 3, 4, 5, 6, 7, 8, 12];

/// What a text that is read may be.
const ACCEPTED: [&str; 5] = [
    "with a remark",
    "without a last newline",
    "with a blank line",
    "of 512 instructions",
    "of over 16,384 bytes of program",
];

#[derive(Default)]
pub struct TextTally {
    pub cases: u64,
    pub calls: u64,
    pub read_back: u64,
    kinds: [u64; KINDS.len()],
    faults: [u64; FAULTS.len()],
    read: [u64; 13],
    printed: [u64; 13],
    accepted: [u64; ACCEPTED.len()],
    longest_text: usize,
    longest_printed: u64,
}

impl TextTally {
    pub fn count_case(&mut self, case: &TextCase) {
        self.cases += 1;
        self.kinds[case.kind as usize] += 1;
        if let Some(fault) = case.fault {
            self.faults[fault as usize] += 1;
        }
    }

    /// Counts a call whose outcome is as it must be.
    pub fn count_outcome(&mut self, input: &[u8], outcome: &TextOutcome) {
        self.calls += 1;
        let number = outcome.number as usize;
        match outcome.operation {
            TextOperation::Read => {
                self.read[number] += 1;
                self.longest_text = self.longest_text.max(input.len());
                if number == 0 {
                    self.count_accepted(input, outcome.answer());
                }
            }
            TextOperation::Print => {
                self.printed[number] += 1;
                if number == 0 {
                    self.longest_printed = self.longest_printed.max(outcome.answer()[0]);
                }
            }
        }
    }

    fn count_accepted(&mut self, text: &[u8], answer: &[u64]) {
        let traits = [
            text.contains(&b'#'),
            text.last() != Some(&b'\n'),
            text.windows(2).any(|pair| pair == b"\n\n"),
            answer[1] == 512,
            answer[0] > 16_384,
        ];
        for (count, holds) in self.accepted.iter_mut().zip(traits) {
            *count += u64::from(holds);
        }
    }

    fn named_counts(&self) -> Vec<(String, u64)> {
        let read = READ_NUMBERS.map(|number| (number, self.read[number as usize]));
        let printed = PRINT_NUMBERS.map(|number| (number, self.printed[number as usize]));
        let read = read.into_iter().map(|(number, count)| (format!("reading: {number}"), count));
        let printed =
            printed.into_iter().map(|(number, count)| (format!("printing: {number}"), count));
        let faults = FAULTS.iter().zip(self.faults);
        let faults = faults.map(|(fault, count)| (format!("fault {fault:?}"), count));
        let accepted = ACCEPTED.iter().zip(self.accepted);
        let accepted = accepted.map(|(name, count)| (format!("a text {name}"), count));
        read.chain(printed).chain(faults).chain(accepted).collect()
    }

    /// What never occurred although it should in a long run.
    pub fn missing(&self) -> Vec<String> {
        let never = self.named_counts().into_iter().filter(|(_, count)| *count == 0);
        never.map(|(name, _)| name).collect()
    }

    pub fn print(&self) {
        println!("cases {}, calls compared with the reference {}", self.cases, self.calls);
        println!("cases by kind: {}", counts(&KINDS.map(|kind| format!("{kind:?}")), &self.kinds));
        println!("faults: {}", counts(&FAULTS.map(|fault| format!("{fault:?}")), &self.faults));
        let numbers = |numbers: &[u32], all: &[u64]| {
            let parts = numbers.iter().map(|&number| format!("{number}: {}", all[number as usize]));
            parts.collect::<Vec<_>>().join(", ")
        };
        println!("answers of reading: {}", numbers(&READ_NUMBERS, &self.read));
        println!("answers of printing: {}", numbers(&PRINT_NUMBERS, &self.printed));
        println!("texts accepted: {}", counts(&ACCEPTED, &self.accepted));
        println!(
            "printed texts read back {}; longest text read {}, longest printed {}",
            self.read_back, self.longest_text, self.longest_printed
        );
    }
}
