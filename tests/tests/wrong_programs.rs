//! The wrong programs of the crates, `must-fail/*.edit` and `by-hand/*.edit`, still apply to the sources, and
//! `docs/WRONG-PROGRAMS.md` names two of them for each public function. Those that the gate tries are meant, and those that are tried by hand.

use std::collections::HashMap;
use std::fs;
use std::path::{Path, PathBuf};

fn root() -> PathBuf {
    Path::new(env!("CARGO_MANIFEST_DIR")).join("..")
}

/// The entries of a folder in order; none where there is no such folder.
fn entries(folder: &Path) -> Vec<PathBuf> {
    let Ok(list) = fs::read_dir(folder) else { return Vec::new() };
    let mut paths: Vec<PathBuf> = list.map(|entry| entry.expect("an entry").path()).collect();
    paths.sort();
    paths
}

fn edits_of(krate: &Path) -> Vec<PathBuf> {
    let mut paths = entries(&krate.join("must-fail"));
    paths.extend(entries(&krate.join("by-hand")));
    paths.retain(|path| path.extension().is_some_and(|end| end == "edit"));
    paths
}

/// Makes the replacements one after the other; what is wrong with the edit, if anything is. A `file:` line holds for the
/// replacements after it.
fn apply(krate: &Path, edit: &str) -> Result<(), String> {
    let marks = ["file: ", "old: ", "new:"];
    let said = |line: &&str| marks.iter().any(|mark| line.starts_with(mark));
    let mut lines = edit.lines().filter(said).peekable();
    while let Some(line) = lines.next() {
        let file = line.strip_prefix("file: ").ok_or("no file")?;
        let source = fs::read_to_string(krate.join(file)).map_err(|error| error.to_string())?;
        let mut text = source.clone();
        while let Some(old) = lines.next_if(|line| !line.starts_with("file: ")) {
            let old = old.strip_prefix("old: ").ok_or("no old line")?;
            let new =
                lines.next().and_then(|line| line.strip_prefix("new:")).ok_or("no new line")?;
            let new = new.strip_prefix(' ').unwrap_or(new);
            match text.matches(old).count() {
                1 => text = text.replace(old, new),
                count => return Err(format!("{count} places for {old}")),
            }
        }
        if text == source {
            return Err(format!("nothing is changed in {file}"));
        }
    }
    Ok(())
}

#[test]
fn every_wrong_program_applies() {
    let mut count = 0;
    for krate in entries(&root().join("crates")) {
        for path in edits_of(&krate) {
            let edit = fs::read_to_string(&path).expect("an edit");
            if let Err(fault) = apply(&krate, &edit) {
                panic!("{}: {fault}", path.display());
            }
            count += 1;
        }
    }
    assert!(count > 0, "no wrong program was found");
}

/// The words in backquotes of one cell of a table.
fn quoted(cell: &str) -> Vec<&str> {
    cell.split('`').skip(1).step_by(2).collect()
}

/// How many wrong programs the table names for each function, `crate/function`, with each of them found.
fn named(table: &str) -> HashMap<String, usize> {
    let mut counts = HashMap::new();
    let mut krate = "";
    for row in table.lines().filter(|line| line.starts_with('|')) {
        let cells: Vec<&str> = row.split('|').collect();
        krate = quoted(cells[1]).first().copied().unwrap_or(krate);
        let Some(function) = quoted(cells[2]).first().copied() else { continue };
        let folder = root().join("crates").join(krate);
        let edits = quoted(cells[3]);
        for edit in &edits {
            let file = format!("{edit}.edit");
            let there =
                ["must-fail", "by-hand"].iter().any(|it| folder.join(it).join(&file).exists());
            assert!(there, "{krate}: no wrong program {edit}");
        }
        counts.insert(format!("{krate}/{function}"), edits.len());
    }
    counts
}

/// The public functions of a source, each with its type or module before it.
fn public_functions(source: &Path) -> Vec<String> {
    let text = fs::read_to_string(source).expect("a source");
    let stem = source.file_stem().expect("a name").to_string_lossy().into_owned();
    let module = if stem == "lib" || stem == "main" { String::new() } else { format!("{stem}::") };
    let mut owner = String::new();
    let mut functions = Vec::new();
    for line in text.lines() {
        if line.starts_with("impl") {
            let name = line.trim_end_matches(" {").rsplit(' ').next().expect("a type");
            owner = format!("{}::", name.split('<').next().expect("a name"));
        } else if line == "}" {
            owner.clear();
        }
        let Some(rest) = line.trim_start().strip_prefix("pub ") else { continue };
        let rest = rest.strip_prefix("extern \"C\" ").unwrap_or(rest);
        if let Some(signature) = rest.strip_prefix("fn ") {
            let name = signature.split('(').next().expect("a name");
            functions.push(format!("{module}{owner}{name}"));
        }
    }
    functions
}

#[test]
fn two_wrong_programs_for_each_public_function() {
    let table = fs::read_to_string(root().join("docs/WRONG-PROGRAMS.md")).expect("the table");
    let mut counts = named(&table);
    for krate in entries(&root().join("crates")) {
        let name = krate.file_name().expect("a name").to_string_lossy().into_owned();
        for source in entries(&krate.join("src")) {
            for function in public_functions(&source) {
                let count = counts.remove(&format!("{name}/{function}")).unwrap_or(0);
                assert!(count >= 2, "{name}::{function}: {count} wrong programs");
            }
        }
    }
    assert!(counts.is_empty(), "no such functions: {:?}", counts.keys());
}
