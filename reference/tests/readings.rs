//! The readings that a run can show; those of refusals stand in `refusals.rs`.

mod common;

use check_box_reference::{listing, strike_out, PairWord, Stop, Verdict};
use common::T::{C, R};
use common::*;

const MAX: u64 = u64::MAX;
const TOP: u64 = 0x8000_0000_0000_0000;

/// The left operands that `SHIFTS` is about.
const SHIFTED: [u64; 4] = [1, MAX, TOP, 0x8A5C_31F1_FB2E_94D7];

/// Request F-2: counts that are equal modulo 64, then the results of shl and of shr for `SHIFTED`.
const SHIFTS: [(&[u64], [u64; 4], [u64; 4]); 3] = [
    (&[0, 64, 128, 0x1_0000_0000, TOP], SHIFTED, SHIFTED),
    (
        &[1, 65],
        [2, 0xFFFF_FFFF_FFFF_FFFE, 0, 0x14B8_63E3_F65D_29AE],
        [0, 0x7FFF_FFFF_FFFF_FFFF, 0x4000_0000_0000_0000, 0x452E_18F8_FD97_4A6B],
    ),
    (&[63, 127, MAX], [TOP, TOP, 0, TOP], [0, 1, 1, 1]),
];

fn listing_of(parts: &JobParts) -> String {
    String::from_utf8(listing(&parts.bytes())).unwrap()
}

/// The value that an expression leaves in r0; r1 to r3 hold the given words.
fn value_of(tokens: &[T], registers: [u64; 3]) -> u64 {
    let mut parts = job(vec![assign(0, tokens)], 0);
    parts.registers[1..4].copy_from_slice(&registers);
    run_of(&parts).end[0]
}

#[test]
fn operators() {
    let binary = |operator, left, right| value_of(&[R(1), R(2), operator], [left, right, 0]);
    assert_eq!(value_of(&[R(1), NEG], [1, 0, 0]), MAX);
    assert_eq!(value_of(&[R(1), NEG], [0, 0, 0]), 0);
    assert_eq!(value_of(&[R(1), NOT], [1, 0, 0]), MAX - 1);
    assert_eq!(binary(ADD, MAX, 2), 1);
    assert_eq!(binary(SUB, 2, 3), MAX);
    assert_eq!(binary(MUL, MAX, MAX), 1);
    assert_eq!(binary(MUL, 1 << 63, 3), 1 << 63);
    assert_eq!((binary(AND, 12, 10), binary(OR, 12, 10), binary(XOR, 12, 10)), (8, 14, 6));
    assert_eq!((binary(EQ, 5, 5), binary(EQ, 5, 4)), (1, 0));
    assert_eq!((binary(ULT, 1, MAX), binary(ULT, MAX, 1), binary(ULT, 1, 1)), (1, 0, 0));
    assert_eq!((binary(SHL, 3, 1), binary(SHL, 1, 63), binary(SHL, 3, 63)), (6, 1 << 63, 1 << 63));
    assert_eq!((binary(SHR, 6, 1), binary(SHR, MAX, 63)), (3, 1));
    for (counts, to_left, to_right) in SHIFTS {
        for &count in counts {
            assert_eq!(SHIFTED.map(|left| binary(SHL, left, count)), to_left, "shl by {count}");
            assert_eq!(SHIFTED.map(|left| binary(SHR, left, count)), to_right, "shr by {count}");
        }
    }
    // The left operand comes first: (r1 - r2) - r3.
    assert_eq!(value_of(&[R(1), R(2), SUB, R(3), SUB], [10, 3, 2]), 5);
    assert_eq!(value_of(&[R(1), R(2), R(3), SUB, SUB], [10, 3, 2]), 9);
}

/// A count that leaves the left operand as it is still joins its set, as any other count does.
#[test]
fn shift_sets_whatever_the_count() {
    for &count in SHIFTS.iter().flat_map(|(counts, ..)| *counts) {
        for operator in [SHL, SHR] {
            let depends = |left: &[T], right: &[T]| {
                let address = [left, right, &[operator]].concat();
                let mut parts = job(vec![assign(5, &address), load(6, &[R(5)])], 0);
                parts.registers[1..5].copy_from_slice(&[9, count, 6, 0]);
                locations(run_of(&parts).answer.depends)
            };
            assert_eq!(depends(&[R(1), R(3), XOR], &[R(2), R(4), OR]), [1, 2, 3, 4]);
            assert_eq!(depends(&[R(1)], &[C(count)]), [1]);
            assert_eq!(depends(&[C(9)], &[R(2)]), [2]);
        }
    }
}

/// Shifts by 64 and 65 decide the addresses, and the branch through the cell that is loaded.
#[test]
fn shift_by_64_gives_an_observed_address() {
    let program = vec![
        load(2, &[R(0), R(1), SHL]),
        beqz(2, 3),
        store(0, &[R(2), R(1), SHR]),
        load(4, &[R(0), C(65), SHL]),
    ];
    let mut parts = job(program, 4);
    parts.registers[..2].copy_from_slice(&[3, 64]);
    parts.cells[3] = 2;
    let (ran, plain) = (run_of(&parts), plain_of(&parts));
    let trace = observed("load 3, start 0, pc 3, load 6, rollback 0, pc 2, store 2, load 6");
    assert_eq!((ran.trace, ran.answer.stop, ran.answer.steps), (trace, Stop::Finished, 6));
    assert_eq!(plain.trace, observed("load 3, pc 2, store 2, load 6"));
    assert_eq!((plain.answer.stop, plain.answer.steps), (Stop::Finished, 4));
    assert_eq!(locations(ran.answer.depends), [0, 1, 19]);
    assert_eq!(locations(plain.answer.plain), [0, 1, 19]);
    assert_eq!((&ran.end[..5], &ran.end[16..]), (&[3, 64, 2, 0, 0][..], &[0, 0, 3, 2][..]));
    assert_eq!(plain.end, ran.end);
}

#[test]
fn reading_6_jump_is_clamped_and_addresses_are_not() {
    for (target, place) in [(2, 2), (3, 3), (4, 3), (MAX, 3)] {
        let mut parts = job(vec![jmp(&[R(5)]), skip(), skip()], 0);
        parts.registers[5] = target;
        let ran = run_of(&parts);
        assert_eq!(ran.trace, [(PC, place)]);
        assert_eq!(
            (locations(ran.answer.depends), locations(ran.answer.plain)),
            (vec![5], vec![5])
        );
        assert_eq!(plain_of(&parts).trace, [(PC, place)]);
    }
    let ran = run_of(&job(vec![load(0, &[C(MAX)]), store(1, &[C(MAX)])], 2));
    assert_eq!(ran.trace, [(LOAD, MAX), (STORE, MAX)]);
}

#[test]
fn reading_7_falling_off_is_not_observed() {
    let ran = run_of(&job(vec![skip(), assign(0, &[C(1)])], 0));
    assert_eq!((ran.trace.len(), ran.answer.steps, ran.answer.stop), (0, 2, Stop::Finished));
}

#[test]
fn reading_8_and_17_conditional_assignment() {
    let program = vec![conditional(0, &[R(1)], &[R(2)]), jmp(&[R(0)])];
    let mut parts = job(program, 0);
    parts.registers[..3].copy_from_slice(&[7, 0, 9]);
    let not_taken = run_of(&parts);
    assert_eq!(not_taken.end[0], 7);
    assert_eq!(locations(not_taken.answer.depends), [0, 1]);
    parts.registers[1] = 1 << 63;
    let taken = run_of(&parts);
    assert_eq!(taken.end[0], 9);
    assert_eq!(locations(taken.answer.depends), [1, 2]);
}

#[test]
fn reading_9_ids_are_never_used_again() {
    let parts = JobParts { window: 0, ..job(vec![beqz(0, 2), skip(), beqz(0, 0)], 0) };
    let ran = run_of(&JobParts { budget: 8, ..parts });
    let trace = observed(
        "start 0, pc 1, rollback 0, pc 2, start 1, pc 3, rollback 1, pc 0, \
         start 2, pc 1, rollback 2, pc 2, start 3, pc 3, rollback 3, pc 0",
    );
    assert_eq!(ran.trace, trace);
}

/// Window 3: after the inner opening both windows are 2; the inner path uses up its own alone.
#[test]
fn reading_10_nested_window_is_what_remains() {
    let program = vec![beqz(0, 6), beqz(0, 6), skip(), skip(), skip(), skip(), load(1, &[C(5)])];
    let ran = run_of(&JobParts { window: 3, ..job(program, 0) });
    let trace = observed(
        "start 0, pc 1, start 1, pc 2, rollback 1, pc 6, load 5, rollback 0, \
         pc 6, load 5",
    );
    assert_eq!(ran.trace, trace);
    // Two openings, two skips, a rollback, the load, a rollback, the load.
    assert_eq!((ran.answer.steps, ran.answer.rollbacks), (8, 2));
}

#[test]
fn reading_10_window_1_gives_two_rollbacks_in_a_row() {
    let program = vec![beqz(0, 3), beqz(0, 3), load(1, &[C(5)]), skip()];
    let ran = run_of(&JobParts { window: 1, ..job(program, 0) });
    let trace = observed("start 0, pc 1, start 1, pc 2, rollback 1, pc 3, rollback 0, pc 3");
    assert_eq!(ran.trace, trace);
    assert_eq!(ran.answer.steps, 5);
}

/// Three branches deep: each opening lowers the branch below it and no other one.
#[test]
fn reading_10_three_deep() {
    let program = vec![beqz(0, 4), beqz(0, 4), beqz(0, 4), skip(), skip(), load(1, &[C(5)])];
    let ran = run_of(&JobParts { window: 3, ..job(program, 0) });
    // The openings leave the windows 3; 2, 2; and 2, 1, 1. The skip at 3 leaves 2, 1, 0.
    // After rollback 2 the skip at 4 leaves 2, 0; after rollback 1 skip and load leave 0.
    let trace = observed(
        "start 0, pc 1, start 1, pc 2, start 2, pc 3, rollback 2, pc 4, \
         rollback 1, pc 4, load 5, rollback 0, pc 4, load 5",
    );
    assert_eq!(ran.trace, trace);
    assert_eq!(ran.answer.steps, 12);
}

#[test]
fn reading_11_barrier() {
    let ran = run_of(&job(vec![spbarr(), load(0, &[C(0)])], 0));
    assert_eq!((ran.trace, ran.answer.steps), (vec![(LOAD, 0)], 2));
    // Only the top is closed: the inner branch's true side is still followed.
    let mut parts = job(vec![beqz(0, 5), beqz(1, 4), load(2, &[R(3)]), skip(), spbarr()], 0);
    parts.registers[1] = 1;
    let trace = observed(
        "start 0, pc 1, start 1, pc 4, rollback 1, pc 2, load 0, rollback 0, \
         pc 5",
    );
    let ran = run_of(&parts);
    assert_eq!(ran.trace, trace);
    // Two openings, barrier, rollback, load, skip, barrier, rollback.
    assert_eq!(ran.answer.steps, 8);
}

#[test]
fn reading_12_window_0() {
    let mut parts = job(vec![beqz(3, 0), load(1, &[R(2)])], 0);
    parts.window = 0;
    parts.registers[3] = 1;
    let ran = run_of(&parts);
    assert_eq!(ran.trace, observed("start 0, pc 0, rollback 0, pc 1, load 0"));
    assert_eq!(locations(ran.answer.depends), [2, 3]);
    assert_eq!(ran.answer.depends, ran.answer.plain);
}

#[test]
fn reading_13_end_rolls_back_at_once() {
    let ran = run_of(&JobParts { window: 200, ..job(vec![beqz(0, 2), jmp(&[C(9)]), skip()], 0) });
    assert_eq!(ran.trace, observed("start 0, pc 1, pc 3, rollback 0, pc 2"));
    assert_eq!(ran.answer.steps, 4);
}

#[test]
fn reading_14_order_of_the_stops() {
    let parts = job(vec![skip(), load(0, &[C(0)])], 1);
    let stop_of = |budget, words| {
        let parts = JobParts { budget, ..parts.clone() };
        let (run, plain) = (run_in(&parts, words).answer, plain_in(&parts, words).answer);
        assert_eq!((run.stop, run.steps), (plain.stop, plain.steps));
        (run.stop, run.steps)
    };
    assert_eq!(stop_of(2, 2), (Stop::Finished, 2), "finished wins over spent and trace full");
    assert_eq!(stop_of(1, 0), (Stop::Spent, 1), "spent wins over trace full");
    assert_eq!(stop_of(0, 0), (Stop::Spent, 0));
    assert_eq!(stop_of(2, 0), (Stop::TraceFull, 1), "the skip is made without any room");
    assert_eq!(stop_of(2, 1), (Stop::TraceFull, 1));
}

#[test]
fn reading_14_two_observations_need_room_for_both() {
    let parts = job(vec![beqz(0, 2), load(1, &[C(0)]), skip()], 1);
    for (words, observations, steps) in
        [(0, 0, 0), (2, 0, 0), (3, 0, 0), (4, 2, 1), (6, 3, 3), (8, 3, 3), (9, 3, 3)]
    {
        let ran = run_in(&parts, words);
        assert_eq!((ran.answer.stop, ran.answer.observations), (Stop::TraceFull, observations));
        assert_eq!(ran.answer.steps, steps);
    }
    assert_eq!(run_in(&parts, 10).answer.stop, Stop::Finished);
}

#[test]
fn reading_15_a_step_not_made_adds_nothing() {
    let parts = job(vec![load(0, &[R(1)]), load(2, &[R(3)])], 1);
    for ran in [run_in(&parts, 2), run_of(&JobParts { budget: 1, ..parts.clone() })] {
        assert_eq!((ran.answer.steps, ran.trace.len()), (1, 1));
        assert_eq!(
            (locations(ran.answer.depends), locations(ran.answer.plain)),
            (vec![1], vec![1])
        );
    }
    let branch = job(vec![beqz(4, 0)], 0);
    let ran = run_in(&branch, 2);
    assert_eq!((ran.answer.depends, ran.answer.plain), ([0; 4], [0; 4]));
    assert_eq!(locations(plain_in(&parts, 2).answer.plain), [1]);
}

#[test]
fn reading_16_sets_are_judged_before_the_step_and_gathered_for_good() {
    // r2 and r3 are seen on the wrong path alone, r4 after it.
    let program = vec![beqz(1, 3), load(5, &[R(2)]), beqz(3, 0), load(5, &[R(4)])];
    let ran = run_of(&JobParts { window: 2, ..job(program, 1) });
    assert_eq!(locations(ran.answer.depends), [1, 2, 3, 4]);
    assert_eq!(locations(ran.answer.plain), [1, 4]);
}

/// A rollback restores registers, cells and their sets.
#[test]
fn rollback_restores_values_and_sets() {
    let program = vec![
        beqz(0, 4),
        assign(1, &[R(2), C(1), ADD]),
        store(2, &[C(0)]),
        conditional(3, &[R(2)], &[C(5)]),
        load(4, &[C(0)]),
        load(5, &[R(1), R(3), ADD, R(4), ADD]),
    ];
    let ran = run_of(&JobParts { window: 3, ..job(program, 1) });
    assert_eq!(ran.trace[3..], observed("rollback 0, pc 4, load 0, load 0"));
    assert_eq!(ran.end, vec![0; 17]);
    assert_eq!(locations(ran.answer.plain), [0, 1, 3, 16]);
    assert_eq!(ran.answer.depends, ran.answer.plain);
}

#[test]
fn load_and_store_sets() {
    // The stored cell takes the address's set and the register's; its own is replaced.
    let program = vec![store(1, &[R(2)]), load(3, &[C(0)]), jmp(&[R(3), C(9), ADD])];
    let ran = run_of(&job(program, 1));
    assert_eq!(locations(ran.answer.depends), [1, 2]);
    // The loaded register takes the address's set and the cell's.
    let program = vec![load(3, &[R(2)]), assign(2, &[C(0)]), jmp(&[R(3), C(9), ADD])];
    let ran = run_of(&job(program, 1));
    assert_eq!(locations(ran.answer.depends), [2, 16]);
    // The stored value is not observed; a constant has the empty set.
    let ran = run_of(&job(vec![store(1, &[C(0)])], 1));
    assert_eq!(ran.answer.depends, [0; 4]);
    // An operator's result depends on both operands even where the value does not.
    let ran = run_of(&job(vec![jmp(&[R(1), R(1), XOR, R(2), C(0), MUL, C(9), OR, OR])], 1));
    assert_eq!(locations(ran.answer.depends), [1, 2]);
}

/// What is stored there stands in `outside.rs`.
#[test]
fn reading_18_loads_out_of_range() {
    // With 16 added these addresses would wrap to registers.
    for address in [1, 240, MAX - 15, MAX] {
        let program = vec![
            load(3, &[R(2)]),
            load(4, &[C(0)]),
            assign(2, &[C(0)]),
            jmp(&[R(3), R(4), ADD, C(5), ADD]),
        ];
        let mut parts = job(program, 1);
        parts.registers[1..4].copy_from_slice(&[5, address, 6]);
        let ran = run_of(&parts);
        assert_eq!(ran.trace, [(LOAD, address), (LOAD, 0), (PC, 4)]);
        assert_eq!(ran.end[..4], [0, 5, 0, 0]);
        assert_eq!(ran.end[16], 0);
        assert_eq!(locations(ran.answer.depends), [2, 16]);
    }
}

#[test]
fn reading_20_end_area_inside_the_wrong_path() {
    let program = vec![beqz(0, 3), assign(1, &[C(9)]), store(1, &[C(0)]), skip()];
    let ran = run_of(&JobParts { budget: 3, ..job(program, 1) });
    assert_eq!((ran.answer.stop, ran.end[1], ran.end[16]), (Stop::Spent, 9, 9));
    assert_eq!(ran.answer.verdict, Verdict::Undecided);
}

/// `run_in` and `pair_of` check that the odd last word and all words past the named ones are kept.
#[test]
fn reading_21_capacity() {
    let parts = job(vec![load(0, &[C(0)]), load(0, &[C(1)])], 0);
    for words in 0..8 {
        let ran = run_in(&parts, words);
        assert_eq!(ran.trace.len(), (words / 2).min(2));
        let finished = words >= 4;
        assert_eq!(ran.answer.stop == Stop::Finished, finished);
        let (answer, first, second) = pair_of(&parts, &parts, words);
        assert_eq!((first.len(), &first), ((words / 2).min(2), &second));
        let word = if finished { PairWord::Equal } else { PairWord::Undecided };
        assert_eq!(answer.word, word);
    }
}

#[test]
fn reading_22_words_of_a_pair() {
    // r1 decides a plain load, r2 a load on the wrong path only.
    let mut parts = job(vec![load(4, &[R(1)]), beqz(0, 3), load(4, &[R(2)]), skip()], 0);
    parts.public = vec![3];
    let word_with = |register: usize, budget| {
        let parts = JobParts { budget, ..parts.clone() };
        let mut second = parts.clone();
        second.registers[register] = 1;
        let (answer, first_trace, second_trace) = pair_of(&parts, &second, 64);
        assert_eq!(first_trace, run_in(&parts, 64).trace);
        assert_eq!(second_trace, run_in(&second, 64).trace);
        answer.word
    };
    assert_eq!(word_with(3, 100), PairWord::NotComparable);
    assert_eq!(word_with(3, 2), PairWord::NotComparable);
    assert_eq!(word_with(1, 2), PairWord::Undecided);
    assert_eq!(word_with(1, 100), PairWord::PlainDiffers);
    assert_eq!(word_with(2, 100), PairWord::LeakShown);
    assert_eq!(word_with(5, 100), PairWord::Equal);
}

#[test]
fn reading_22_one_run_not_finished() {
    // With r0 = 1 the jump returns to itself for ever.
    let parts = job(vec![jmp(&[C(1), R(0), SUB])], 0);
    let mut second = parts.clone();
    second.registers[0] = 1;
    let (answer, first, second) = pair_of(&parts, &second, 64);
    assert_eq!(answer.word, PairWord::Undecided);
    assert_eq!((answer.first.stop, answer.second.stop), (Stop::Finished, Stop::TraceFull));
    assert_eq!((first.len(), second.len()), (1, 32));
}

#[test]
fn reading_23_verdict() {
    let verdict_with = |public: Vec<usize>| {
        let parts = job(vec![load(4, &[R(1)]), beqz(0, 3), load(4, &[R(2)]), skip()], 0);
        run_of(&JobParts { public, ..parts }).answer.verdict
    };
    assert_eq!(verdict_with(vec![0, 1, 2]), Verdict::Clean);
    assert_eq!(verdict_with(vec![0, 2]), Verdict::Plain);
    assert_eq!(verdict_with(vec![0, 1]), Verdict::Speculative);
    assert_eq!(verdict_with(vec![]), Verdict::Speculative);
}

#[test]
fn reading_24_listing() {
    let parts = job(vec![load(0, &[C(3)]), beqz(0, 0), store(0, &[C(3)])], 0);
    let text = listing_of(&JobParts { window: 0, budget: 3, ..parts });
    let expected = "load 3\nstart 0\npc 2\nrollback 0\npc 0\nstop spent\nsteps 3\nrollbacks 1\n\
depends\nplain\nverdict undecided\n";
    assert_eq!(text, expected);
    // 512 observations fit; the next jump does not.
    let text = listing_of(&JobParts { budget: 1_000, ..job(vec![jmp(&[C(0)])], 0) });
    assert_eq!(text.lines().filter(|line| *line == "pc 0").count(), 512);
    assert!(text.ends_with(
        "pc 0\nstop trace full\nsteps 512\nrollbacks 0\ndepends\nplain\nverdict undecided\n"
    ));
    let text = listing_of(&job(vec![jmp(&[C(7)])], 0));
    assert_eq!(text.lines().next(), Some("pc end"));
    assert_eq!(listing(&[]), b"refused 1\n");
    assert_eq!(listing(&job(vec![jmp(&[ADD])], 0).bytes()), b"refused 5\n");
}

#[test]
fn strike_out_keeps_the_branch_observation() {
    let trace = observed(
        "load 1, start 0, pc 1, start 1, pc 2, rollback 1, pc 3, rollback 0, \
         pc 5, store 0, start 2, pc 8, rollback 2, pc 9",
    );
    assert_eq!(strike_out(&trace), observed("load 1, pc 5, store 0, pc 9"));
    assert_eq!(strike_out(&trace[..7]), [(LOAD, 1)]);
    assert_eq!(strike_out(&[]), []);
}
