//! Each refusal number of document 01 at its boundary, and the order of the checks
//! (readings 1 to 5, 22). Refusals 11 to 14 stand in the tests of their requests.

mod common;

use check_box_reference::{compare, listing, plain_run, run, WINDOW_COSTS};
use common::T::{C, R};
use common::*;

/// The smallest job: one skip, no cells, 177 bytes.
fn smallest() -> JobParts {
    job(vec![skip()], 0)
}

fn refusal_of_program(program: Vec<Vec<u8>>) -> u32 {
    refusal_of(&job(program, 0).bytes())
}

/// The bytes with a 16-bit number of the trailer replaced; field 0 is S, field 5 the zero.
fn with_trailer(mut bytes: Vec<u8>, field: usize, value: u16) -> Vec<u8> {
    let at = bytes.len() - 16 + 2 * field;
    bytes[at..at + 2].copy_from_slice(&value.to_le_bytes());
    bytes
}

#[test]
fn refusal_1_length() {
    assert_eq!(refusal_of(&[]), 1);
    assert_eq!(refusal_of(&[0; 15]), 1);
    assert_eq!(refusal_of(&[0; 16]), 2, "n is 0");
    // 16 bytes with n 1 pass test 2, so test 3 judges S, Q and the length.
    assert_eq!(refusal_of(&with_trailer(vec![0; 16], 2, 1)), 3);
    assert_eq!(refusal_of(&vec![0; 16_384]), 2);
    assert_eq!(refusal_of(&vec![0; 16_385]), 1);
    assert_eq!(listing(&[]), b"refused 1\n");
}

/// A job of the given length made of long conditional assignments and skips.
fn job_of_length(length: usize) -> Vec<u8> {
    let operands = [vec![C(1); 8], vec![ADD; 7]].concat();
    let long = conditional(0, &operands, &operands);
    let program_bytes = length - 128 - 48;
    let mut program = vec![long.clone(); program_bytes / long.len()];
    program.extend(vec![skip(); program_bytes % long.len()]);
    let bytes = job(program, 0).bytes();
    assert_eq!(bytes.len(), length);
    bytes
}

#[test]
fn a_job_of_16384_bytes_is_accepted() {
    assert_eq!(refusal_of(&job_of_length(16_384)), 0);
    assert_eq!(refusal_of(&job_of_length(16_385)), 1);
}

#[test]
fn refusal_2_trailer_limits() {
    let with_count = |n: usize| refusal_of_program(vec![skip(); n]);
    assert_eq!((with_count(0), with_count(1), with_count(512), with_count(513)), (2, 0, 0, 2));
    let with_cells = |m: usize| refusal_of(&job(vec![skip()], m).bytes());
    assert_eq!((with_cells(0), with_cells(240), with_cells(241)), (0, 0, 2));
    let with_window = |window| refusal_of(&JobParts { window, ..smallest() }.bytes());
    assert_eq!((with_window(0), with_window(200), with_window(201)), (0, 0, 2));
    let with_budget = |budget| refusal_of(&JobParts { budget, ..smallest() }.bytes());
    assert_eq!((with_budget(0), with_budget(1_000_000), with_budget(1_000_001)), (0, 0, 2));
    for zero in [1, 0x100, 0x8000] {
        assert_eq!(refusal_of(&with_trailer(smallest().bytes(), 5, zero)), 2);
    }
}

#[test]
fn refusal_3_offsets() {
    let bytes = smallest().bytes();
    assert_eq!(refusal_of(&bytes), 0);
    for (field, value) in [(0, 0), (0, 2), (1, 128), (1, 130), (0, 0xFFFF), (1, 0xFFFF)] {
        assert_eq!(refusal_of(&with_trailer(bytes.clone(), field, value)), 3);
    }
    assert_eq!(refusal_of(&with_trailer(bytes.clone(), 3, 1)), 3, "m does not fit Q - S");
    let mut longer = bytes.clone();
    longer.insert(0, 0);
    assert_eq!(refusal_of(&longer), 3, "Q + 48 is one below the length");
}

/// Reading 3: Q + 48 and S + 128 + 8m are no 16-bit sums.
#[test]
fn offsets_do_not_wrap() {
    // Q + 48 is 16 modulo 2^16, the length of this file.
    let mut bytes = with_trailer(vec![0; 16], 2, 1);
    bytes = with_trailer(bytes, 1, 0xFFE0);
    bytes = with_trailer(bytes, 0, 0xFFE0 - 128);
    assert_eq!(refusal_of(&bytes), 3);
    // S + 128 is 100 modulo 2^16, and 100 + 48 is the length of this file.
    let mut bytes = with_trailer(vec![0; 148], 2, 1);
    bytes = with_trailer(bytes, 1, 100);
    bytes = with_trailer(bytes, 0, 0xFFE4);
    assert_eq!(refusal_of(&bytes), 3);
}

#[test]
fn refusal_4_unknown_bytes() {
    assert_eq!(refusal_of_program(vec![spbarr()]), 0);
    assert_eq!(refusal_of_program(vec![vec![8]]), 4);
    assert_eq!(refusal_of_program(vec![assign(15, &[R(15)])]), 0);
    for instruction in [
        assign(16, &[R(0)]),
        load(16, &[R(0)]),
        store(16, &[R(0)]),
        beqz(16, 0),
        conditional(16, &[R(0)], &[R(0)]),
    ] {
        assert_eq!(refusal_of_program(vec![instruction]), 4);
    }
    assert_eq!(refusal_of_program(vec![jmp(&[R(0), R(0), T::Op(28)])]), 0);
    assert_eq!(refusal_of_program(vec![jmp(&[R(0), R(0), T::Op(29)])]), 4);
    assert_eq!(refusal_of_program(vec![jmp(&[T::Op(255)])]), 4);
}

#[test]
fn refusal_4_token_count() {
    let of_count = |count: usize| jmp(&[vec![R(0)], vec![NOT; count - 1]].concat());
    assert_eq!(refusal_of_program(vec![vec![4, 0]]), 4);
    assert_eq!(refusal_of_program(vec![of_count(1)]), 0);
    assert_eq!(refusal_of_program(vec![of_count(16)]), 0);
    assert_eq!(refusal_of_program(vec![of_count(17)]), 4);
}

/// Reading 2: a field past S, wholly or in part, is 4; S = 0 is 4.
#[test]
fn refusal_4_past_the_program() {
    assert_eq!(refusal_of_program(vec![skip(), vec![]]), 4, "the second kind byte is past S");
    assert_eq!(refusal_of_program(vec![vec![]]), 4, "S is 0");
    for whole in [
        assign(1, &[C(0)]),
        load(1, &[R(1), NOT]),
        store(1, &[C(1)]),
        jmp(&[C(1)]),
        beqz(1, 0),
        conditional(1, &[R(1)], &[C(7)]),
    ] {
        assert_eq!(refusal_of_program(vec![whole.clone()]), 0);
        for length in 1..whole.len() {
            assert_eq!(refusal_of_program(vec![whole[..length].to_vec()]), 4);
        }
    }
}

#[test]
fn refusal_5_postfix() {
    for broken in [
        &[NEG][..],
        &[ADD],
        &[R(0), ADD],
        &[R(0), R(1)],
        &[R(0), R(1), R(2), ADD],
        &[R(0), ADD, R(1)],
    ] {
        for instruction in [
            assign(0, broken),
            load(0, broken),
            store(0, broken),
            jmp(broken),
            conditional(0, broken, &[R(0)]),
            conditional(0, &[R(0)], broken),
        ] {
            assert_eq!(refusal_of_program(vec![instruction]), 5);
        }
    }
}

/// Reading 5: eight values are held, a ninth is 5; a constant is one token.
#[test]
fn refusal_5_values_held() {
    let eight = [vec![C(1); 8], vec![ADD; 7]].concat();
    assert_eq!(refusal_of_program(vec![assign(0, &eight)]), 0);
    // With at most 16 tokens a ninth value also leaves too many; both causes are 5.
    let nine = [vec![R(1); 9], vec![ADD; 7]].concat();
    assert_eq!(refusal_of_program(vec![assign(0, &nine)]), 5);
}

/// Reading 4: n is END and allowed, except at label n - 1; the own label is allowed.
#[test]
fn refusal_6_branch_label() {
    let first = |label| refusal_of_program(vec![beqz(0, label), skip(), skip()]);
    assert_eq!([first(0), first(1), first(2), first(3), first(4)], [0, 6, 0, 0, 6]);
    let last = |label| refusal_of_program(vec![skip(), skip(), beqz(0, label)]);
    assert_eq!([last(0), last(1), last(2), last(3), last(4)], [0, 0, 0, 6, 6]);
    assert_eq!(first(0xFFFF), 6);
}

#[test]
fn refusal_7_bytes_left() {
    let mut parts = smallest();
    parts.program[0].push(0);
    assert_eq!(refusal_of(&parts.bytes()), 7);
    parts.program[0] = vec![0, 255];
    assert_eq!(refusal_of(&parts.bytes()), 7);
}

#[test]
fn refusal_8_public_bit() {
    for m in [0, 1, 7, 8, 239] {
        let mut parts = job(vec![skip()], m);
        parts.public = vec![16 + m - 1];
        assert_eq!(refusal_of(&parts.bytes()), 0);
        parts.public = vec![16 + m];
        assert_eq!(refusal_of(&parts.bytes()), 8);
        parts.public = vec![255];
        assert_eq!(refusal_of(&parts.bytes()), 8);
    }
    let mut parts = job(vec![skip()], 240);
    parts.public = (0..256).collect();
    assert_eq!(refusal_of(&parts.bytes()), 0);
}

/// The refusal of a pair with areas of the given lengths; 0 if it is accepted.
fn pair_refusal(bytes: &[u8], state: &[u8], lengths: [usize; 3]) -> u32 {
    let [mut first, mut second, mut work] = lengths.map(area);
    match compare(bytes, state, &WINDOW_COSTS, &mut first, &mut second, &mut work) {
        Ok(_) => 0,
        Err(number) => {
            assert_eq!([first, second, work], lengths.map(area));
            number
        }
    }
}

#[test]
fn refusal_9_second_state() {
    let bytes = job(vec![skip()], 2).bytes();
    for (length, number) in [(144, 0), (143, 9), (145, 9), (0, 9), (136, 9), (152, 9)] {
        assert_eq!(pair_refusal(&bytes, &vec![0; length], [8, 8, WORK]), number);
    }
}

#[test]
fn refusal_10_areas_of_a_run() {
    let bytes = job(vec![skip()], 2).bytes();
    for (end_words, work_words, number) in
        [(147, WORK, 0), (146, WORK, 10), (0, WORK, 10), (147, WORK - 1, 10), (147, 0, 10)]
    {
        let areas = || (area(2), area(end_words), area(work_words));
        let (mut trace, mut end, mut work) = areas();
        let result = run(&bytes, &WINDOW_COSTS, &mut trace, &mut end, &mut work).map(|_| ());
        assert_eq!(result.err().unwrap_or(0), number);
        let (mut plain_trace, mut plain_end, mut plain_work) = areas();
        let result =
            plain_run(&bytes, &mut plain_trace, &mut plain_end, &mut plain_work).map(|_| ());
        assert_eq!(result.err().unwrap_or(0), number);
        if number != 0 {
            assert_eq!((trace, end, work), areas());
            assert_eq!((plain_trace, plain_end, plain_work), areas());
        }
    }
}

#[test]
fn refusal_10_areas_of_a_pair() {
    let parts = job(vec![skip()], 2);
    let (bytes, state) = (parts.bytes(), parts.state_bytes());
    for (lengths, number) in [
        ([8, 8, WORK], 0),
        ([0, 0, WORK], 0),
        ([8, 9, WORK], 10),
        ([9, 8, WORK], 10),
        ([0, 1, WORK], 10),
        ([8, 8, WORK - 1], 10),
    ] {
        assert_eq!(pair_refusal(&bytes, &state, lengths), number);
    }
}

/// Reading 1: within one instruction 4 comes before 5 and 5 before 6.
#[test]
fn order_within_one_instruction() {
    assert_eq!(refusal_of_program(vec![conditional(0, &[ADD], &[T::Op(29)])]), 4);
    assert_eq!(refusal_of_program(vec![conditional(0, &[ADD], &[R(0)])[..5].to_vec()]), 4);
    assert_eq!(refusal_of_program(vec![beqz(16, 9)]), 4);
}

/// Reading 1: an instruction's 5 or 6 comes before the next one's 4.
#[test]
fn order_between_instructions() {
    assert_eq!(refusal_of_program(vec![jmp(&[ADD]), vec![8]]), 5);
    assert_eq!(refusal_of_program(vec![beqz(0, 9), vec![8]]), 6);
    assert_eq!(refusal_of_program(vec![beqz(0, 1), jmp(&[ADD])]), 6);
    assert_eq!(refusal_of_program(vec![vec![8], jmp(&[ADD])]), 4);
}

/// Each later cause is added while the earlier one stands.
#[test]
fn order_of_the_numbers() {
    let mut parts = job(vec![skip()], 2);
    let short_areas = [8, 9, 0];
    assert_eq!(pair_refusal(&parts.bytes(), &parts.state_bytes(), short_areas), 10);
    assert_eq!(pair_refusal(&parts.bytes(), &[], short_areas), 9);
    parts.public = vec![18];
    assert_eq!(pair_refusal(&parts.bytes(), &[], short_areas), 8);
    parts.program = vec![[skip(), skip()].concat()];
    assert_eq!(pair_refusal(&parts.bytes(), &[], short_areas), 7);
    parts.program = vec![[beqz(0, 1), skip()].concat()];
    assert_eq!(pair_refusal(&parts.bytes(), &[], short_areas), 6);
    let misplaced = with_trailer(parts.bytes(), 0, 0);
    assert_eq!(pair_refusal(&misplaced, &[], short_areas), 3);
    let wide_window = with_trailer(misplaced, 4, 201);
    assert_eq!(pair_refusal(&wide_window, &[], short_areas), 2);
    let too_long = [vec![0; 16_384], wide_window].concat();
    assert_eq!(pair_refusal(&too_long, &[], short_areas), 1);
}
