//! Document 02, F-5: the set of an expression is gathered ahead of its value, and without one. No contract can say in which
//! order a function computes, so this is seen in the sources of `expression`, `evaluation` and `work`.

use std::fs;
use std::path::Path;

/// What reads or makes a set, and what reads or makes a value.
const SETS: [&str; 5] = ["set_at(", "load_set(", "set_of(", "set_of_two(", "LocationSet::empty()"];
const VALUES: [&str; 7] = [
    "work[at + VALUE]",
    "load_value(",
    "value_of(",
    "operate_one(",
    "operate_two(",
    "token::word(",
    "constant_of(",
];

fn source(path: &str) -> String {
    let file = Path::new(env!("CARGO_MANIFEST_DIR")).join("../crates").join(path);
    fs::read_to_string(file).expect("a source")
}

/// The functions of a source, each with its name and the lines of its body; no contract, no comment.
fn functions(source: &str) -> Vec<(String, String)> {
    let mut found: Vec<(String, String)> = Vec::new();
    let mut inside = false;
    for line in source.lines().filter(|line| !line.trim_start().starts_with("//")) {
        if let Some(rest) = line.trim_start_matches("pub ").strip_prefix("fn ") {
            found.push((rest.split('(').next().expect("a name").to_string(), String::new()));
        } else if line == "{" {
            inside = true;
        } else if line == "}" {
            inside = false;
        } else if inside {
            let (_, body) = found.last_mut().expect("a function");
            body.push_str(line);
            body.push('\n');
        }
    }
    found
}

/// Where the first of these stands.
fn first_of(body: &str, names: &[&str]) -> Option<usize> {
    names.iter().filter_map(|name| body.find(name)).min()
}

/// Where the last of these stands.
fn last_of(body: &str, names: &[&str]) -> Option<usize> {
    names.iter().filter_map(|name| body.rfind(name)).max()
}

#[test]
fn the_set_comes_ahead_of_the_value() {
    let mut both = Vec::new();
    for path in ["work/src/lib.rt", "expression/src/lib.rt", "evaluation/src/lib.rt"] {
        for (name, body) in functions(&source(path)) {
            let (sets, value) = (last_of(&body, &SETS), first_of(&body, &VALUES));
            if let (Some(last), Some(first)) = (sets, value) {
                assert!(last < first, "{path}: {name} has a value ahead of a set");
                both.push(name);
            }
        }
    }
    let in_evaluation = ["one_value", "constant_value", "with_constant", "with_register"];
    assert_eq!(both, [&["load_at", "evaluate"][..], &in_evaluation].concat());
}

#[test]
fn a_set_is_gathered_in_one_pass_and_from_sets_alone() {
    let sets = functions(&source("expression/src/sets.rt"));
    let two = functions(&source("evaluation/src/lib.rt"));
    let two = two.into_iter().filter(|(name, _)| name == "set_of_two");
    let gathering: Vec<(String, String)> = sets.into_iter().chain(two).collect();
    let names: Vec<&str> = gathering.iter().map(|(name, _)| name.as_str()).collect();
    assert_eq!(names, ["set_of", "set_of_two"]);
    for (name, body) in &gathering {
        assert!(body.contains("work::load_set("), "{name} reads no set");
        assert_eq!(first_of(body, &VALUES), None, "{name} has a value");
        assert!(!body.contains("work::load(") && !body.contains("work["), "{name} reads words");
    }
    let loops = ["for ", "while ", "loop "].map(|word| gathering[0].1.matches(word).count());
    assert_eq!(loops.iter().sum::<usize>(), 1, "one pass");
}
