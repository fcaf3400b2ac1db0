//! The committed example files are those that make-examples writes, and have document 01's listings.

use std::path::PathBuf;

use check_box_reference::{listing, print_text, read_text};
use checker_tests::examples::{self, barrier, nested, outside, printed, r0_zero};
use checker_tests::job_file::Parts;

#[test]
fn committed_files_are_as_generated() {
    let folder = PathBuf::from(env!("CARGO_MANIFEST_DIR")).join("../examples");
    for (name, content) in examples::files().into_iter().chain(examples::texts()) {
        let committed = std::fs::read(folder.join(name)).expect(name);
        assert_eq!(committed, content, "{name} differs from what make-examples writes");
    }
}

#[test]
fn the_printed_job_has_the_offsets_of_the_document() {
    let job = printed().bytes();
    assert_eq!(job.len(), 236);
    assert_eq!(job[220..224], [28, 0, 188, 0]);
}

#[test]
fn the_text_is_that_of_the_printed_job() {
    let (job, mut out) = (printed().bytes(), [0; 100]);
    let length = print_text(&job, &mut out).expect("accepted");
    assert_eq!(&out[..length], examples::PRINTED_TEXT.as_bytes());
    let counts = read_text(examples::PRINTED_TEXT.as_bytes(), &mut out).expect("accepted");
    assert_eq!((&out[..counts.bytes], counts.instructions), (&job[..28], 4));
}

fn lines(parts: &Parts) -> String {
    String::from_utf8(listing(&parts.bytes())).expect("text")
}

#[test]
fn the_printed_job_is_printed_as_in_the_document() {
    let text = "start 0\npc 2\nload 1\nload 3\nrollback 0\npc end\nstop finished\nsteps 5\n\
                rollbacks 1\ndepends r0 r1 m1\nplain r0 r1\nverdict speculative\n\
                first r0 0 branch 1\nfirst r1 0 branch 1\nfirst m1 3 load 3\n";
    assert_eq!(lines(&printed()), text);
}

#[test]
fn the_spilling_job_is_stopped_at_its_65th_address() {
    let text = lines(&outside());
    assert!(text.starts_with("store 18446744073709551615\npc 0\n"), "{text}");
    let end = "store 18446744073709551552\npc 0\nstop outside full\nsteps 257\nrollbacks 0\n\
               depends r1\nplain r1\nverdict undecided\nfirst r1 0 store 1\n";
    assert!(text.ends_with(end), "{text}");
}

#[test]
fn the_other_examples_are_those_of_the_document() {
    let text = lines(&r0_zero());
    let trace = "start 0\npc end\nrollback 0\npc 2\nload 0\nload 2\nstop finished\nsteps 5\n";
    let firsts = "first r0 0 branch 1\nfirst r1 0 branch 1\n";
    let end = format!("verdict plain\n{firsts}first m0 5 load 3\n");
    assert!(text.starts_with(trace) && text.ends_with(&end), "{text}");
    let text = lines(&barrier());
    let trace = "start 0\npc 2\nrollback 0\npc end\nstop finished\nsteps 4\n";
    let end = format!("verdict clean\n{firsts}");
    assert!(text.starts_with(trace) && text.ends_with(&end), "{text}");
    let text = lines(&nested());
    let trace = "start 0\npc 1\nstart 1\npc 2\nrollback 1\npc end\nrollback 0\npc end\n\
                 stop finished\nsteps 5\n";
    let end = "verdict clean\nfirst r0 0 branch 0\nfirst r1 2 branch 1\n";
    assert!(text.starts_with(trace) && text.ends_with(end), "{text}");
}
