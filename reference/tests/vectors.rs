//! Runs every vector of the vector files; the head of each file describes its format.
//! The file is that of the environment variable VECTORS, or those are of `../vectors` of the package.

mod common;

use std::collections::HashMap;
use std::path::{Path, PathBuf};

use check_box_reference::{
    compare, listing, plain_run, print_text, read_text, run, test_load, First, LoadAnswer,
    RunAnswer, RunCounts, WINDOW_COSTS,
};
use common::{area, area_with, byte_area, byte_area_with, locations, WORK};

/// The level from which the vectors have the reports of request F-6.
const FIRSTS_LEVEL: u64 = 6;

/// The level from which the vectors with a mispredicting run have the table of request F-7.
const COSTS_LEVEL: u64 = 7;

/// One block of the file: its key lines, and the lines that begin with "| ".
/// Lines with the key "first" stand apart, because there is one for each location of D.
#[derive(Default)]
struct Vector {
    fields: HashMap<String, String>,
    firsts: Vec<String>,
    text: String,
}

impl Vector {
    fn field(&self, key: &str) -> &str {
        self.fields.get(key).unwrap_or_else(|| panic!("no line \"{key}\""))
    }

    fn numbers(&self, key: &str) -> Vec<u64> {
        let parse = |word: &str| word.parse().expect("a decimal number");
        self.field(key).split_whitespace().map(parse).collect()
    }

    fn bytes(&self, key: &str) -> Vec<u8> {
        let text = self.field(key);
        assert!(text.len().is_multiple_of(2), "odd count of hexadecimal digits");
        let byte = |at: usize| u8::from_str_radix(&text[at..at + 2], 16).expect("hexadecimal");
        (0..text.len()).step_by(2).map(byte).collect()
    }

    fn lent(&self, name: &str) -> usize {
        let words: Vec<&str> = self.field("lent").split_whitespace().collect();
        let lent = words.chunks_exact(2).find(|pair| pair[0] == name);
        lent.expect("a lent area")[1].parse().expect("a length")
    }

    /// A block without a level is of the lowest.
    fn level(&self) -> u64 {
        if self.fields.contains_key("level") {
            self.numbers("level")[0]
        } else {
            0
        }
    }

    fn has_firsts(&self) -> bool {
        self.level() >= FIRSTS_LEVEL
    }

    /// The table of window costs; a vector below the level has none and is run with eight ones.
    fn costs(&self) -> Vec<u8> {
        if self.level() >= COSTS_LEVEL {
            self.bytes("costs")
        } else {
            WINDOW_COSTS.to_vec()
        }
    }

    fn refused(&self) -> Option<u32> {
        self.fields.get("refused").map(|number| number.parse().expect("a number"))
    }

    /// The area as it must be afterwards, with the words of a line at its front.
    fn area_after(&self, name: &str) -> Vec<u64> {
        match self.refused() {
            Some(_) => area(self.lent(name)),
            None => area_with(&self.numbers(name), self.lent(name)),
        }
    }

    fn work_after(&self) -> Vec<u64> {
        match self.refused() {
            Some(_) => area(self.lent("work")),
            None => area_with(&[0; WORK], self.lent("work")),
        }
    }

    /// The lines of the answer as the file writes them.
    fn answer_lines(&self, keys: &[&str]) -> Vec<String> {
        match self.refused() {
            Some(number) => vec![format!("refused {number}")],
            None => keys.iter().map(|key| line(key, self.field(key))).collect(),
        }
    }
}

fn line(key: &str, value: &str) -> String {
    format!("{key} {value}").trim_end().to_string()
}

fn set_line(key: &str, set: [u64; 4]) -> String {
    let members: Vec<String> = locations(set).iter().map(usize::to_string).collect();
    line(key, &members.join(" "))
}

fn stop_line(stop: check_box_reference::Stop) -> String {
    line("stop", &stop.word().replace(' ', "-"))
}

fn first_lines(answer: &RunAnswer) -> Vec<String> {
    let line = |(location, first): (usize, &Option<First>)| {
        let First { index, cause, label } = (*first)?;
        Some(format!("first {location} {index} {} {label}", cause.word()))
    };
    answer.firsts.iter().enumerate().filter_map(line).collect()
}

fn refused_lines(number: u32) -> Vec<String> {
    vec![format!("refused {number}")]
}

fn run_lines(answer: &RunAnswer) -> Vec<String> {
    vec![
        stop_line(answer.stop),
        format!("observations {}", answer.observations),
        format!("steps {}", answer.steps),
        format!("rollbacks {}", answer.rollbacks),
        set_line("depends", answer.depends),
        set_line("plain", answer.plain),
        line("verdict", answer.verdict.word()),
    ]
}

fn check_run(vector: &Vector) {
    let [mut trace, mut end, mut work] =
        ["trace", "end", "work"].map(|name| area(vector.lent(name)));
    let (job, costs) = (vector.bytes("job"), vector.costs());
    let lines = match run(&job, &costs, &mut trace, &mut end, &mut work) {
        Err(number) => refused_lines(number),
        Ok(answer) => {
            assert_eq!(answer.observations as usize * 2, vector.numbers("trace").len());
            let firsts = if vector.has_firsts() { first_lines(&answer) } else { Vec::new() };
            [run_lines(&answer), firsts].concat()
        }
    };
    let keys = ["stop", "observations", "steps", "rollbacks", "depends", "plain", "verdict"];
    assert_eq!(lines, [vector.answer_lines(&keys), vector.firsts.clone()].concat());
    check_areas(vector, trace, end, work);
}

fn check_plain(vector: &Vector) {
    let [mut trace, mut end, mut work] =
        ["trace", "end", "work"].map(|name| area(vector.lent(name)));
    let lines = match plain_run(&vector.bytes("job"), &mut trace, &mut end, &mut work) {
        Err(number) => refused_lines(number),
        Ok(answer) => {
            assert_eq!(answer.observations as usize * 2, vector.numbers("trace").len());
            vec![
                stop_line(answer.stop),
                format!("observations {}", answer.observations),
                format!("steps {}", answer.steps),
                set_line("plain", answer.plain),
            ]
        }
    };
    assert_eq!(lines, vector.answer_lines(&["stop", "observations", "steps", "plain"]));
    check_areas(vector, trace, end, work);
}

fn check_areas(vector: &Vector, trace: Vec<u64>, end: Vec<u64>, work: Vec<u64>) {
    assert_eq!(trace, vector.area_after("trace"), "trace area");
    assert_eq!(end, vector.area_after("end"), "end area");
    assert_eq!(work, vector.work_after(), "working area");
}

fn counts_line(key: &str, counts: &RunCounts) -> String {
    let RunCounts { stop, steps, rollbacks, observations } = counts;
    let stop = stop_line(*stop);
    format!("{key} {stop} observations {observations} steps {steps} rollbacks {rollbacks}")
}

fn check_pair(vector: &Vector) {
    let [mut first, mut second, mut work] =
        ["trace1", "trace2", "work"].map(|name| area(vector.lent(name)));
    let (job, state, costs) = (vector.bytes("job"), vector.bytes("second"), vector.costs());
    let lines = match compare(&job, &state, &costs, &mut first, &mut second, &mut work) {
        Err(number) => refused_lines(number),
        Ok(answer) => {
            assert_eq!(answer.first.observations as usize * 2, vector.numbers("trace1").len());
            assert_eq!(answer.second.observations as usize * 2, vector.numbers("trace2").len());
            vec![
                line("word", answer.word.word()),
                counts_line("first-run", &answer.first),
                counts_line("second-run", &answer.second),
            ]
        }
    };
    assert_eq!(lines, vector.answer_lines(&["word", "first-run", "second-run"]));
    assert_eq!(first, vector.area_after("trace1"), "first trace area");
    assert_eq!(second, vector.area_after("trace2"), "second trace area");
    assert_eq!(work, vector.work_after(), "working area");
}

fn load_lines(answer: &LoadAnswer) -> Vec<String> {
    let mut lines = vec![line("word", answer.word.word()), counts_line("first-run", &answer.first)];
    lines.extend(answer.second.iter().map(|second| counts_line("second-run", second)));
    lines.push(format!("made {}", u8::from(answer.second.is_some())));
    lines
}

/// Where no new state is made the vector has no line for the second run, its trace or the state.
fn check_load(vector: &Vector) {
    let [mut first, mut second, mut work] =
        ["trace1", "trace2", "work"].map(|name| area(vector.lent(name)));
    let mut state = byte_area(vector.lent("state"));
    let (job, seed, costs) = (vector.bytes("job"), vector.numbers("seed-word")[0], vector.costs());
    let answer = test_load(&job, seed, &costs, &mut first, &mut second, &mut work, &mut state);
    let lines = match answer {
        Err(number) => refused_lines(number),
        Ok(answer) => {
            assert_eq!(answer.first.observations as usize * 2, vector.numbers("trace1").len());
            if let Some(counts) = &answer.second {
                assert_eq!(counts.observations as usize * 2, vector.numbers("trace2").len());
            }
            load_lines(&answer)
        }
    };
    let made = vector.fields.get("made").is_some_and(|made| made == "1");
    for key in ["second-run", "trace2", "state"] {
        assert_eq!(vector.fields.contains_key(key), made, "line \"{key}\"");
    }
    assert_eq!(first, vector.area_after("trace1"), "first trace area");
    assert_eq!(work, vector.work_after(), "working area");
    if made {
        assert_eq!(lines, vector.answer_lines(&["word", "first-run", "second-run", "made"]));
        assert_eq!(second, vector.area_after("trace2"), "second trace area");
        assert_eq!(state, byte_area_with(&vector.bytes("state"), state.len()), "state area");
    } else {
        assert_eq!(lines, vector.answer_lines(&["word", "first-run", "made"]));
        assert_eq!(second, area(second.len()), "second trace area");
        assert_eq!(state, byte_area(state.len()), "state area");
    }
}

/// A line of a listing with the location's number in place of its name, as a key line has it.
fn with_location_number(line: &str) -> String {
    let (name, rest) = line["first ".len()..].split_once(' ').expect("a location and more");
    let (kind, number) = name.split_at(1);
    let number: usize = number.parse().expect("a number");
    let location = if kind == "r" { number } else { 16 + number };
    format!("first {location} {rest}")
}

/// The text of a vector has the lines of request F-6 from their level on. Where the vector has
/// them as key lines too, those say the same.
fn check_listing(vector: &Vector) {
    let text = String::from_utf8(listing(&vector.bytes("job"))).expect("text");
    let (firsts, others): (Vec<&str>, Vec<&str>) =
        text.split_inclusive('\n').partition(|line| line.starts_with("first "));
    if vector.has_firsts() {
        assert_eq!(text, vector.text);
    } else {
        assert_eq!(others.concat(), vector.text);
    }
    if !vector.firsts.is_empty() {
        assert!(vector.has_firsts(), "a line \"first\" below its level");
        let lines: Vec<String> =
            firsts.iter().map(|line| with_location_number(line.trim_end())).collect();
        assert_eq!(lines, vector.firsts);
    }
}

/// The output area as it must be afterwards.
fn output_after(vector: &Vector) -> Vec<u8> {
    if vector.refused().is_some() {
        return byte_area(vector.lent("out"));
    }
    let written = vector.bytes("out");
    assert_eq!(line("bytes", vector.field("bytes")), format!("bytes {}", written.len()));
    byte_area_with(&written, vector.lent("out"))
}

fn check_read(vector: &Vector) {
    let mut out = byte_area(vector.lent("out"));
    let lines = match read_text(&vector.bytes("text"), &mut out) {
        Err(number) => refused_lines(number),
        Ok(counts) => {
            let (bytes, instructions) = (counts.bytes, counts.instructions);
            vec![format!("bytes {bytes}"), format!("instructions {instructions}")]
        }
    };
    assert_eq!(lines, vector.answer_lines(&["bytes", "instructions"]));
    assert_eq!(out, output_after(vector), "output area");
}

fn check_print(vector: &Vector) {
    let mut out = byte_area(vector.lent("out"));
    let lines = match print_text(&vector.bytes("job"), &mut out) {
        Err(number) => refused_lines(number),
        Ok(bytes) => vec![format!("bytes {bytes}")],
    };
    assert_eq!(lines, vector.answer_lines(&["bytes"]));
    assert_eq!(out, output_after(vector), "output area");
}

fn check(vector: &Vector) {
    let op = vector.field("op");
    // Only a mispredicting run by itself reports; plain runs, pairs and test loads do not.
    assert!(vector.firsts.is_empty() || ["run", "listing"].contains(&op), "lines \"first\"");
    // From that level on each call with a mispredicting run takes a table, and no other does.
    let takes_costs = vector.level() >= COSTS_LEVEL && ["run", "pair", "load"].contains(&op);
    assert_eq!(vector.fields.contains_key("costs"), takes_costs, "line \"costs\"");
    match op {
        "run" => check_run(vector),
        "plain" => check_plain(vector),
        "pair" => check_pair(vector),
        "load" => check_load(vector),
        "listing" => check_listing(vector),
        "read" => check_read(vector),
        "print" => check_print(vector),
        other => panic!("unknown op {other}"),
    }
}

fn parse(block: &str) -> Vector {
    let mut vector = Vector::default();
    for line in block.lines().filter(|line| !line.starts_with('#')) {
        if let Some(text) = line.strip_prefix('|') {
            vector.text.push_str(text.strip_prefix(' ').unwrap_or(text));
            vector.text.push('\n');
            continue;
        }
        let (key, value) = line.split_once(' ').unwrap_or((line, ""));
        if key == "first" {
            vector.firsts.push(line.to_string());
            continue;
        }
        let earlier = vector.fields.insert(key.to_string(), value.to_string());
        assert!(earlier.is_none(), "line \"{key}\" stands twice in one vector");
    }
    vector
}

fn vector_files() -> Vec<PathBuf> {
    if let Some(path) = std::env::var_os("VECTORS") {
        return vec![PathBuf::from(path)];
    }
    let folder = PathBuf::from(env!("CARGO_MANIFEST_DIR")).join("../vectors");
    let entries = std::fs::read_dir(&folder).expect("the folder of the vectors");
    let paths = entries.map(|entry| entry.expect("an entry of the folder").path());
    let mut files: Vec<PathBuf> =
        paths.filter(|path| path.extension().is_some_and(|end| end == "txt")).collect();
    assert!(!files.is_empty(), "no vector file in {}", folder.display());
    files.sort();
    files
}

/// Runs the vectors of a file; the names of those that disagree.
fn disagreeing(path: &Path) -> Vec<String> {
    let file = std::fs::read_to_string(path).unwrap_or_else(|error| {
        panic!("cannot read the vector file {}: {error}; set VECTORS to its path", path.display())
    });
    let mut ran = 0;
    let mut disagreeing = Vec::new();
    let vectors = file.split("\n\n").map(parse).filter(|vector| !vector.fields.is_empty());
    for vector in vectors {
        ran += 1;
        if std::panic::catch_unwind(|| check(&vector)).is_err() {
            disagreeing.push(vector.field("vector").to_string());
        }
    }
    println!("{}: {ran} vectors ran, {} disagreed", path.display(), disagreeing.len());
    assert!(ran > 0, "the vector file {} holds no vector", path.display());
    disagreeing
}

#[test]
fn all_vectors() {
    for path in vector_files() {
        let names = disagreeing(&path);
        assert!(
            names.is_empty(),
            "{}: vectors that disagree: {}",
            path.display(),
            names.join(", ")
        );
    }
}
