//! A failing case on paper: its input as a file, and beside it what differed and how to repeat it.

use std::path::Path;

use crate::cases::Case;
use crate::demands::hexadecimal;
use crate::text::calls::TextOperation;
use crate::text::cases::TextCase;

/// Prints the case and writes failing-NAME.mua and failing-NAME.txt to the folder.
pub fn report(case: &Case, difference: &str, folder: &Path) {
    let job = format!("failing-{}.mua", case.name);
    write(&case.name, (&job, &case.job), &describe(case, difference), difference, folder);
}

/// The same for a text to read, failing-NAME.text, or a job to print, failing-NAME.mua.
pub fn report_text(case: &TextCase, difference: &str, folder: &Path) {
    let ending = if case.operation == TextOperation::Read { "text" } else { "mua" };
    let input = format!("failing-{}.{ending}", case.name);
    let text = describe_text(case, difference);
    write(&case.name, (&input, &case.input), &text, difference, folder);
}

fn write(name: &str, input: (&str, &[u8]), text: &str, difference: &str, folder: &Path) {
    println!("case {name}: {difference}");
    let (path, bytes) = (folder.join(input.0), input.1);
    let described = folder.join(format!("failing-{name}.txt"));
    let written = std::fs::write(&path, bytes).and_then(|()| std::fs::write(&described, text));
    match written {
        Ok(()) => println!("written to {} and {}", path.display(), described.display()),
        Err(error) => println!("cannot write {}: {error}", path.display()),
    }
}

fn describe(case: &Case, difference: &str) -> String {
    let style = case.style.map_or("none".to_string(), |style| format!("{style:?}"));
    format!(
        "seed {}\nwhat differed: {difference}\nstyle {style}, treatment {:?}\nlengths in words: \
         {:?}, the state's in bytes\nsalt {}\nseed of the test load {}\ntable of window costs \
         {}\nsecond state {}\nrepeat with: differential --case {}\n",
        case.name,
        case.treatment,
        case.lengths,
        case.salt,
        case.load_seed,
        hexadecimal(&case.costs),
        hexadecimal(&case.second),
        case.name
    )
}

fn describe_text(case: &TextCase, difference: &str) -> String {
    let fault = case.fault.map_or("none".to_string(), |fault| format!("{fault:?}"));
    format!(
        "seed {}\nwhat differed: {difference}\nkind {:?}, fault {fault}\nlength of the output area: \
         {} bytes\nsalt {}\nrepeat with: texts --case {}\n",
        case.name, case.kind, case.length, case.salt, case.name
    )
}
