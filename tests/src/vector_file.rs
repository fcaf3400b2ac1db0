//! Vectors of a text file: blocks of lines "key words" ended by an empty line; the head of the file
//! describes the keys. Each vector is a call with what it must return and leave.

use std::collections::HashMap;

use check_box_reference::listing;

use crate::calls::{Call, Lengths, Operation, Outcome};
use crate::cost_tables::ONES;
use crate::demands::has;
use crate::lend::{Area, Fill};
use crate::library::{LOCATIONS, REPORT_WORDS, RUN_COUNTS};
use crate::listed::{CAUSES, VERDICTS};
use crate::text::calls::{TextCall, TextOperation, TextOutcome};

const WORKING_WORDS: usize = 4_096;

/// The words of a pair in the order of their numbers.
const PAIR_WORDS: [&str; 5] =
    ["not comparable", "undecided", "plain differs", "leak shown", "equal"];

/// The level from which a vector has the first observation of each location of D, which is that of request F-6.
const FIRSTS_LEVEL: u64 = 6;

/// The level from which a call with a mispredicting run has a table of window costs, which is that of request F-7.
const COSTS_LEVEL: u64 = 7;

/// The filling that the files' heads prescribe, with some words or bytes around each area.
const FILL: Fill = Fill { salt: 0, margin: 8 };

/// One block: its key lines, those with the key "first" apart, since there is one for each location of D; and the
/// text of the lines that begin with "|".
#[derive(Default)]
pub struct Vector {
    fields: HashMap<String, String>,
    firsts: Vec<String>,
    text: String,
}

/// Which program answered a vector.
#[derive(Clone, Copy, PartialEq, Eq, Debug)]
pub enum Checked {
    Library(Operation),
    LibraryText(TextOperation),
    ReferenceListing,
}

pub fn parse_file(text: &str) -> Result<Vec<Vector>, String> {
    let vectors: Result<Vec<Vector>, String> = text.split("\n\n").map(Vector::parse).collect();
    Ok(vectors?.into_iter().filter(|vector| !vector.fields.is_empty()).collect())
}

impl Vector {
    fn parse(block: &str) -> Result<Vector, String> {
        let mut vector = Vector::default();
        for line in block.lines().filter(|line| !line.starts_with('#') && !line.is_empty()) {
            if let Some(text) = line.strip_prefix('|') {
                vector.text.push_str(text.strip_prefix(' ').unwrap_or(text));
                vector.text.push('\n');
                continue;
            }
            let (key, value) = line.split_once(' ').unwrap_or((line, ""));
            if key == "first" {
                vector.firsts.push(value.to_string());
                continue;
            }
            if vector.fields.insert(key.to_string(), value.to_string()).is_some() {
                return Err(format!("line \"{key}\" stands twice in one vector"));
            }
        }
        Ok(vector)
    }

    pub fn name(&self) -> &str {
        self.fields.get("vector").map_or("without a name", String::as_str)
    }

    fn field(&self, key: &str) -> Result<&str, String> {
        self.fields.get(key).map(String::as_str).ok_or_else(|| format!("no line \"{key}\""))
    }

    fn numbers(&self, key: &str) -> Result<Vec<u64>, String> {
        self.field(key)?.split_whitespace().map(number).collect()
    }

    /// The hexadecimal bytes of a line, which is not there for every operation.
    fn bytes(&self, key: &str) -> Result<Vec<u8>, String> {
        let text = self.field(key)?;
        if !text.is_ascii() || text.len() % 2 != 0 {
            return Err(format!("\"{key}\" is not a row of bytes"));
        }
        let byte = |at: usize| u8::from_str_radix(&text[at..at + 2], 16);
        let bytes: Result<Vec<u8>, _> = (0..text.len()).step_by(2).map(byte).collect();
        bytes.map_err(|error| format!("\"{key}\": {error}"))
    }

    fn lent(&self, name: &str) -> Result<usize, String> {
        let words: Vec<&str> = self.field("lent")?.split_whitespace().collect();
        let lent = words.chunks_exact(2).find(|pair| pair[0] == name);
        let pair = lent.ok_or_else(|| format!("no length for area \"{name}\""))?;
        Ok(number(pair[1])? as usize)
    }

    /// A set's line as four words.
    fn set(&self, key: &str) -> Result<[u64; 4], String> {
        let mut words = [0; 4];
        for location in self.numbers(key)? {
            let word = words.get_mut(location as usize / 64).ok_or("a location over 255")?;
            *word |= 1 << (location % 64);
        }
        Ok(words)
    }

    fn stop(text: &str) -> Result<u64, String> {
        position(&["finished", "spent", "trace-full", "outside-full"], text)
    }

    /// The four numbers of a line such as "stop spent observations 1 steps 2 rollbacks 3".
    fn counts(&self, key: &str) -> Result<[u64; 4], String> {
        let words: Vec<&str> = self.field(key)?.split_whitespace().collect();
        let ["stop", stop, "observations", observations, "steps", steps, "rollbacks", rollbacks] =
            words[..]
        else {
            return Err(format!("\"{key}\" has other words"));
        };
        Ok([Vector::stop(stop)?, number(observations)?, number(steps)?, number(rollbacks)?])
    }

    /// The request after which the vector was made; one without a level is of the lowest.
    fn level(&self) -> Result<u64, String> {
        self.fields.get("level").map_or(Ok(0), |text| number(text))
    }

    fn has_firsts(&self) -> Result<bool, String> {
        Ok(self.level()? >= FIRSTS_LEVEL)
    }

    /// The table of a call; a vector of before request F-7 has none, and its answer is that of eight ones.
    fn costs(&self, operation: Operation) -> Result<Vec<u8>, String> {
        if operation == Operation::Plain || self.level()? < COSTS_LEVEL {
            return Ok(ONES.to_vec());
        }
        self.bytes("costs")
    }

    /// The words of the reports: zeros where a location has no line. There is a line for each location of D.
    fn reports(&self) -> Result<Vec<u64>, String> {
        let mut reports = vec![[0; REPORT_WORDS]; LOCATIONS];
        let mut reported = Vec::new();
        for line in &self.firsts {
            let words: Vec<&str> = line.split_whitespace().collect();
            let [location, index, cause, label] = words[..] else {
                return Err(format!("\"first {line}\" has other words"));
            };
            let location = number(location)? as usize;
            let report = reports.get_mut(location).ok_or("a location over 255")?;
            *report = [number(index)?, position(&CAUSES, cause)?, number(label)?];
            reported.push(location);
        }
        let depends = self.set("depends")?;
        let members = (0..LOCATIONS).filter(|&location| has(depends, location));
        if !members.eq(reported) {
            return Err("the lines \"first\" are not those of the locations of D".to_string());
        }
        Ok(reports.concat())
    }

    /// A vector of before request F-6 has no reports: they are then to be those of the reference.
    fn run_answer(&self, call: &Call) -> Result<Vec<u64>, String> {
        let mut words = self.plain_counts()?;
        words.push(number(self.field("rollbacks")?)?);
        words.extend(self.set("depends")?);
        words.extend(self.set("plain")?);
        words.push(position(&VERDICTS, self.field("verdict")?)?);
        words.extend(if self.has_firsts()? {
            self.reports()?
        } else {
            call.by_reference().answer()[RUN_COUNTS..].to_vec()
        });
        Ok(words)
    }

    fn plain_counts(&self) -> Result<Vec<u64>, String> {
        let stop = Vector::stop(self.field("stop")?)?;
        Ok(vec![stop, number(self.field("observations")?)?, number(self.field("steps")?)?])
    }

    fn plain_answer(&self) -> Result<Vec<u64>, String> {
        let mut words = self.plain_counts()?;
        words.extend(self.set("plain")?);
        Ok(words)
    }

    fn pair_answer(&self) -> Result<Vec<u64>, String> {
        let mut words = vec![position(&PAIR_WORDS, self.field("word")?)?];
        words.extend(self.counts("first-run")?);
        words.extend(self.counts("second-run")?);
        Ok(words)
    }

    /// There is no line for the second run where no state was made.
    fn load_answer(&self) -> Result<Vec<u64>, String> {
        let made = number(self.field("made")?)?;
        let mut words = vec![position(&PAIR_WORDS, self.field("word")?)?];
        words.extend(self.counts("first-run")?);
        words.extend(if made == 1 { self.counts("second-run")? } else { [0; 4] });
        words.push(made);
        Ok(words)
    }

    fn answer(&self, call: &Call) -> Result<Vec<u64>, String> {
        match call.operation {
            Operation::Run => self.run_answer(call),
            Operation::Plain => self.plain_answer(),
            Operation::Pair => self.pair_answer(),
            Operation::Load => self.load_answer(),
        }
    }

    /// An area as the vector says it is after the call.
    fn area_after(&self, name: &str) -> Result<Area, String> {
        let length = self.lent(name)?;
        let written = match name {
            _ if self.fields.contains_key("refused") => Vec::new(),
            "trace2" if self.is_without_state() => Vec::new(),
            "work" => vec![0; WORKING_WORDS],
            _ => self.numbers(name)?,
        };
        if written.len() > length {
            return Err(format!("more words than the area \"{name}\" has"));
        }
        Ok(Area::filled_with(&written, length, FILL))
    }

    /// True if the vector says that no state was made.
    fn is_without_state(&self) -> bool {
        self.fields.get("made").is_some_and(|made| made == "0")
    }

    /// The state area as the vector says it is after the call; a call other than a test load has none.
    fn state_after(&self, operation: Operation) -> Result<Area<u8>, String> {
        let length = self.state_length(operation)?;
        let nothing = operation != Operation::Load
            || self.fields.contains_key("refused")
            || self.is_without_state();
        let written = if nothing { Vec::new() } else { self.bytes("state")? };
        if written.len() > length {
            return Err("more bytes than the area \"state\" has".to_string());
        }
        Ok(Area::filled_with(&written, length, FILL))
    }

    fn state_length(&self, operation: Operation) -> Result<usize, String> {
        if operation == Operation::Load {
            self.lent("state")
        } else {
            Ok(0)
        }
    }

    /// The refusal's number, or 0.
    fn refused(&self) -> Result<u32, String> {
        self.fields.get("refused").map_or(Ok(0), |text| number(text)).map(|number| number as u32)
    }

    fn expected(&self, call: &Call) -> Result<Outcome, String> {
        let operation = call.operation;
        let number = self.refused()?;
        let answer = if number == 0 { self.answer(call)? } else { Vec::new() };
        let [a, b, c] = operation.area_names().map(|name| self.area_after(name));
        Ok(Outcome {
            operation,
            number,
            answer: Area::filled_with(&answer, operation.answer_words(), FILL),
            areas: [a?, b?, c?],
            state: self.state_after(operation)?,
            inputs_kept: true,
        })
    }

    fn lengths(&self, operation: Operation) -> Result<Lengths, String> {
        let [first, second, work] = operation.area_names().map(|name| self.lent(name));
        let (first, second, work) = (first?, second?, work?);
        let state = self.state_length(operation)?;
        Ok(Lengths { trace: first, second_trace: second, end: second, work, state })
    }

    fn check_call(&self, operation: Operation) -> Result<(), String> {
        let job = self.bytes("job")?;
        let second = if operation == Operation::Pair { self.bytes("second")? } else { Vec::new() };
        let seed = if operation == Operation::Load { number(self.field("seed-word")?)? } else { 0 };
        let (costs, lengths) = (self.costs(operation)?, self.lengths(operation)?);
        let (second, costs) = (&second[..], &costs[..]);
        let call = Call { operation, job: &job, second, seed, costs, lengths, fill: FILL };
        match call.by_library().difference(&self.expected(&call)?) {
            Some(difference) => Err(difference),
            None => Ok(()),
        }
    }

    fn text_answer(&self, operation: TextOperation) -> Result<Vec<u64>, String> {
        let keys: &[&str] = match operation {
            TextOperation::Read => &["bytes", "instructions"],
            TextOperation::Print => &["bytes"],
        };
        keys.iter().map(|key| number(self.field(key)?)).collect()
    }

    fn expected_text(&self, operation: TextOperation) -> Result<TextOutcome, String> {
        let number = self.refused()?;
        let (answer, written) = match number {
            0 => (self.text_answer(operation)?, self.bytes("out")?),
            _ => (Vec::new(), Vec::new()),
        };
        let length = self.lent("out")?;
        if written.len() > length || (number == 0 && answer[0] != written.len() as u64) {
            return Err("the bytes written do not fit the area or their count".to_string());
        }
        Ok(TextOutcome {
            operation,
            number,
            answer: Area::filled_with(&answer, operation.answer_words(), FILL),
            out: Area::filled_with(&written, length, FILL),
            input_kept: true,
        })
    }

    fn check_text(&self, operation: TextOperation) -> Result<(), String> {
        let key = if operation == TextOperation::Read { "text" } else { "job" };
        let input = self.bytes(key)?;
        let call = TextCall { operation, input: &input, length: self.lent("out")?, fill: FILL };
        match call.by_library().difference(&self.expected_text(operation)?) {
            Some(difference) => Err(difference),
            None => Ok(()),
        }
    }

    /// A listing of before request F-6 has no lines "first".
    fn check_listing(&self) -> Result<(), String> {
        let text = listing(&self.bytes("job")?);
        let text = String::from_utf8(text).map_err(|error| error.to_string())?;
        let firsts = self.has_firsts()?;
        let there = |line: &&str| firsts || !line.starts_with("first ");
        if text.split_inclusive('\n').filter(there).collect::<String>() == self.text {
            Ok(())
        } else {
            Err(format!("the listing is\n{text}"))
        }
    }

    /// Runs the vector; the library has no listing, so listings are made by the reference.
    pub fn check(&self) -> Result<Checked, String> {
        let call = |operation| self.check_call(operation).map(|()| Checked::Library(operation));
        let text = |operation| self.check_text(operation).map(|()| Checked::LibraryText(operation));
        match self.field("op")? {
            "run" => call(Operation::Run),
            "plain" => call(Operation::Plain),
            "pair" => call(Operation::Pair),
            "load" => call(Operation::Load),
            "read" => text(TextOperation::Read),
            "print" => text(TextOperation::Print),
            "listing" => self.check_listing().map(|()| Checked::ReferenceListing),
            other => Err(format!("unknown op \"{other}\"")),
        }
    }
}

fn number(text: &str) -> Result<u64, String> {
    text.parse().map_err(|error| format!("\"{text}\": {error}"))
}

fn position(names: &[&str], text: &str) -> Result<u64, String> {
    let found = names.iter().position(|name| *name == text);
    found.map(|at| at as u64).ok_or_else(|| format!("unknown word \"{text}\""))
}
