//! The cases of texts keep their promises: what is known of a case is what the reference answers, a fault
//! leads to refusal 11, and a seed gives the same case every time.

use check_box_reference::{print_text, read_text};
use checker_tests::random::{case_seed, Random};
use checker_tests::text::calls::TextOperation;
use checker_tests::text::cases::{random_text_case, Known, TextCase};
use checker_tests::text::faults::FAULTS;
use checker_tests::text::fixed;
use checker_tests::text::lines::{
    assemble, parts_of, random_layout, written_branch, written_skip, PRINTED,
};

/// What the reference answers in an area that is large enough: the bytes, and for a text its instructions.
fn answer(case: &TextCase) -> Result<(Vec<u8>, Option<usize>), u32> {
    let mut out = vec![0; 100_000];
    let (bytes, instructions) = match case.operation {
        TextOperation::Read => {
            let counts = read_text(&case.input, &mut out)?;
            (counts.bytes, Some(counts.instructions))
        }
        TextOperation::Print => (print_text(&case.input, &mut out)?, None),
    };
    out.truncate(bytes);
    Ok((out, instructions))
}

fn assert_as_known(case: &TextCase) {
    match (&case.known, answer(case)) {
        (Known::Nothing, _) => {}
        (Known::Refused(number), answer) => {
            assert_eq!(answer.err(), Some(*number), "case {}", case.name)
        }
        (Known::Written(bytes, count), answer) => {
            let (written, instructions) = answer.expect("accepted");
            assert_eq!(&written, bytes, "case {}", case.name);
            assert_eq!(instructions.unwrap_or(*count), *count, "case {}", case.name);
        }
    }
}

#[test]
fn what_is_known_holds_for_the_reference() {
    for case in fixed::all() {
        assert_as_known(&case);
    }
    for number in 0..20_000 {
        assert_as_known(&random_text_case(case_seed(3, number)));
    }
}

#[test]
fn each_fault_is_refused() {
    let lines = [written_branch(1, 0).line, written_skip().line];
    for fault in FAULTS {
        for seed in 0..500 {
            let mut random = Random::new(case_seed(4, seed));
            let mut faulty = lines.to_vec();
            fault.put(&mut faulty, &mut random);
            let layout = random_layout(&mut random);
            let text = assemble(&faulty, layout, &mut random);
            let number = read_text(&text, &mut [0; 6_000]).err();
            assert_eq!(number, Some(11), "{fault:?}, seed {seed}");
        }
    }
}

#[test]
fn parts_of_a_printed_text_make_it_again() {
    for number in 0..500 {
        let case = random_text_case(case_seed(5, number));
        let Ok((text, None)) = answer(&case) else { continue };
        let again = assemble(&parts_of(&text), PRINTED, &mut Random::new(0));
        assert_eq!(text, again, "case {}", case.name);
    }
}

#[test]
fn a_seed_gives_the_same_case() {
    for seed in 0..500 {
        let (one, two) = (random_text_case(seed), random_text_case(seed));
        assert_eq!((one.input, one.length, one.salt), (two.input, two.length, two.salt));
        assert_eq!(one.known, two.known);
    }
}
