//! Stores outside the image: request F-4 of document 02, with its reading.

mod common;

use check_box_reference::{
    compare, listing, plain_run, run, strike_out, test_load, PairWord, RunAnswer, RunCounts, Stop,
    Verdict, OUTSIDE_LIMIT, OUTSIDE_WORDS, WINDOW_COSTS,
};
use common::random::Random;
use common::T::{C, R};
use common::*;

const MAX: u64 = u64::MAX;

/// Stores of register 1 at so many addresses from 1,000 on.
fn spills(count: u64) -> Vec<Vec<u8>> {
    (0..count).map(|k| store(1, &[C(1_000 + k)])).collect()
}

/// The entries that these stores leave.
fn spilled(count: u64) -> Vec<(u64, u64)> {
    (0..count).map(|k| (1_000 + k, 5)).collect()
}

/// A job with budget 1,000: register 0 is 0, register 1 is stored, register 2 is an address
/// that `spills` leaves free, register 3 is stored after register 1.
fn spilling(program: Vec<Vec<u8>>, m: usize) -> JobParts {
    let mut parts = JobParts { budget: 1_000, ..job(program, m) };
    parts.registers[1..4].copy_from_slice(&[5, 2_000, 7]);
    parts
}

/// The same with instructions after the stores.
fn after_spills(count: u64, program: Vec<Vec<u8>>) -> JobParts {
    spilling([spills(count), program].concat(), 2)
}

/// The run of a job without branches in a trace area of that many words;
/// the plain run is the same in all that it returns and writes.
fn straight_in(parts: &JobParts, trace_words: usize) -> Ran<RunAnswer> {
    let (run, plain) = (run_in(parts, trace_words), plain_in(parts, trace_words));
    assert_eq!((run.answer.stop, run.answer.steps), (plain.answer.stop, plain.answer.steps));
    assert_eq!((&run.trace, &run.end, &run.outside), (&plain.trace, &plain.end, &plain.outside));
    assert_eq!((run.answer.plain, run.answer.depends), (plain.answer.plain, plain.answer.plain));
    run
}

fn straight(parts: &JobParts) -> Ran<RunAnswer> {
    straight_in(parts, 1_024)
}

/// The members of D and of the plain set.
fn sets(answer: &RunAnswer) -> (Vec<usize>, Vec<usize>) {
    (locations(answer.depends), locations(answer.plain))
}

#[test]
fn numbers_and_words() {
    assert_eq!((OUTSIDE_LIMIT, OUTSIDE_WORDS), (64, 129));
    assert_eq!((Stop::OutsideFull.number(), Stop::OutsideFull.word()), (3, "outside full"));
}

/// With 16 added some of these addresses would wrap to registers.
#[test]
fn a_store_outside_is_remembered() {
    for m in [0, 1, 240] {
        let first = m as u64;
        for address in [first, first + 1, 255, 256, 1 << 32, 1 << 63, MAX - 16, MAX - 15, MAX] {
            let mut parts = spilling(vec![store(1, &[R(2)]), load(4, &[C(address)])], m);
            parts.registers[2] = address;
            let ran = straight(&parts);
            assert_eq!(ran.trace, [(STORE, address), (LOAD, address)]);
            assert_eq!(ran.outside, [(address, 5)]);
            let mut end = [parts.registers.to_vec(), parts.cells].concat();
            end[4] = 5;
            assert_eq!(ran.end, end);
        }
    }
}

#[test]
fn a_store_into_the_image_is_none() {
    for m in [1, 2, 240] {
        let last = m as u64 - 1;
        let ran = straight(&spilling(vec![store(1, &[C(last)]), load(4, &[C(last)])], m));
        assert_eq!((ran.outside.len(), ran.end[15 + m], ran.end[4]), (0, 5, 5));
    }
}

/// The words stand apart: 2^64 - 1 is remembered beside its neighbours and cell 0.
#[test]
fn each_address_has_its_own_word() {
    let addresses = [MAX, MAX - 1, 1, 1 << 63, 0];
    let program = (0..5).map(|k| store(5 + k, &[C(addresses[usize::from(k)])]));
    let program = program.chain((0..5).map(|k| load(15 - k, &[C(addresses[usize::from(k)])])));
    let mut parts = spilling(program.collect(), 1);
    parts.registers[5..10].copy_from_slice(&[50, 51, 52, 53, 54]);
    let ran = straight(&parts);
    assert_eq!(ran.outside, [(MAX, 50), (MAX - 1, 51), (1, 52), (1 << 63, 53)]);
    assert_eq!(ran.end[5..], [50, 51, 52, 53, 54, 0, 54, 53, 52, 51, 50, 54]);
}

/// The set of the entry is that of the address and the register, as at a cell.
#[test]
fn remembered_with_its_set() {
    let program = vec![store(1, &[R(2)]), load(4, &[C(2_000)]), load(6, &[R(4)])];
    let ran = straight(&spilling(program, 2));
    assert_eq!(ran.trace, [(STORE, 2_000), (LOAD, 2_000), (LOAD, 5)]);
    assert_eq!(sets(&ran.answer), (vec![1, 2], vec![1, 2]));
    // A word made of constants has the empty set.
    let program = vec![assign(1, &[C(8)]), store(1, &[C(9)]), load(4, &[C(9)]), load(6, &[R(4)])];
    let ran = straight(&spilling(program, 2));
    assert_eq!((ran.trace[2], sets(&ran.answer)), ((LOAD, 8), (vec![], vec![])));
    // A store alone observes the address; the register's set is not in D.
    let ran = straight(&spilling(vec![store(1, &[R(2)])], 2));
    assert_eq!(sets(&ran.answer), (vec![2], vec![2]));
}

#[test]
fn a_load_joins_the_address_set_and_the_remembered_set() {
    let program = vec![store(1, &[C(2_000)]), load(4, &[R(2)]), jmp(&[R(4), C(9), ADD])];
    let ran = straight(&spilling(program, 2));
    assert_eq!((ran.end[4], sets(&ran.answer)), (5, (vec![1, 2], vec![1, 2])));
}

#[test]
fn unwritten_addresses_read_0_with_the_address_set() {
    for others in [0, 1, 64] {
        let program = vec![load(1, &[R(2)]), assign(2, &[C(0)]), load(6, &[R(1)])];
        let ran = straight(&after_spills(others, program));
        assert_eq!(ran.trace[others as usize..], [(LOAD, 2_000), (LOAD, 0)]);
        assert_eq!((ran.end[1], sets(&ran.answer)), (0, (vec![2], vec![2])));
        assert_eq!((ran.answer.stop, ran.outside), (Stop::Finished, spilled(others)));
    }
}

/// The new set is not joined with the old one, and the entry keeps its place.
#[test]
fn a_later_store_replaces_word_and_set() {
    let program = vec![
        store(1, &[C(30)]),
        store(2, &[C(20)]),
        store(2, &[C(10)]),
        store(3, &[C(30)]),
        load(4, &[C(30)]),
        load(6, &[R(4)]),
    ];
    let ran = straight(&spilling(program, 2));
    assert_eq!(ran.trace[4..], [(LOAD, 30), (LOAD, 7)]);
    assert_eq!(ran.outside, [(30, 7), (20, 2_000), (10, 2_000)]);
    assert_eq!(sets(&ran.answer), (vec![3], vec![3]));
    // A word with the empty set takes even the last location away.
    let program = vec![
        store(1, &[C(30)]),
        assign(1, &[C(8)]),
        store(1, &[C(30)]),
        load(4, &[C(30)]),
        load(6, &[R(4)]),
    ];
    let ran = straight(&spilling(program, 2));
    assert_eq!((ran.outside, ran.answer.depends), (vec![(30, 8)], [0; 4]));
}

/// The order is that of the first stores, not that of the addresses or of the last stores.
#[test]
fn order_of_first_store() {
    let program = [30, 10, 40, 20, 10, 30].map(|address| store(1, &[C(address)]));
    let ran = straight(&spilling(program.to_vec(), 2));
    assert_eq!(ran.outside, [(30, 5), (10, 5), (40, 5), (20, 5)]);
}

#[test]
fn sixty_four_addresses_fit() {
    for m in [0, 2, 240] {
        for count in [1, 63, 64] {
            let ran = straight(&spilling(spills(count), m));
            assert_eq!((ran.answer.stop, ran.answer.steps), (Stop::Finished, count));
            assert_eq!((ran.outside, ran.answer.verdict), (spilled(count), Verdict::Clean));
        }
    }
}

#[test]
fn a_65th_address_stops_the_run() {
    for m in [0, 2, 240] {
        for count in [65, 66, 100] {
            let ran = straight(&spilling(spills(count), m));
            assert_eq!((ran.answer.stop, ran.answer.steps), (Stop::OutsideFull, 64));
            assert_eq!((ran.trace.len(), ran.answer.rollbacks), (64, 0));
            assert_eq!((ran.outside, ran.answer.verdict), (spilled(64), Verdict::Undecided));
        }
    }
}

/// A full table stops neither loads nor stores at cells or at remembered addresses.
#[test]
fn a_full_table_stops_no_other_step() {
    let program =
        vec![store(3, &[C(1_063)]), store(3, &[C(1_000)]), store(3, &[C(1)]), load(6, &[R(2)])];
    let ran = straight(&after_spills(64, program));
    assert_eq!((ran.answer.stop, ran.answer.steps), (Stop::Finished, 68));
    let mut entries = spilled(64);
    (entries[0].1, entries[63].1) = (7, 7);
    assert_eq!((ran.outside, ran.end[17], ran.end[6]), (entries, 7, 0));
    // Without cells address 1 is outside.
    let ran = straight(&spilling([spills(64), vec![store(3, &[C(1)])]].concat(), 0));
    assert_eq!((ran.answer.stop, ran.outside), (Stop::OutsideFull, spilled(64)));
}

/// The state at the stop is that before the store, and the register's set is not gathered.
#[test]
fn the_stopping_store_adds_its_address_set() {
    let program = vec![store(3, &[R(2), R(4), ADD]), load(6, &[R(7)])];
    let ran = straight(&after_spills(64, program));
    assert_eq!((ran.answer.stop, ran.answer.steps, ran.trace.len()), (Stop::OutsideFull, 64, 64));
    assert_eq!(sets(&ran.answer), (vec![2, 4], vec![2, 4]));
    assert_eq!(ran.outside, spilled(64));
    let made = straight(&after_spills(63, vec![store(3, &[R(2)])]));
    assert_eq!((made.answer.stop, made.outside[63]), (Stop::Finished, (2_000, 7)));
}

/// With a branch open the address set joins D alone; the plain run goes on to the end.
#[test]
fn a_65th_address_on_a_wrong_path() {
    let parts = after_spills(64, vec![beqz(0, 66), store(3, &[R(2)])]);
    let ran = run_of(&parts);
    assert_eq!((ran.answer.stop, ran.answer.steps), (Stop::OutsideFull, 65));
    assert_eq!((ran.answer.rollbacks, ran.answer.verdict), (0, Verdict::Undecided));
    assert_eq!(ran.trace[64..], observed("start 0, pc 65"));
    assert_eq!(sets(&ran.answer), (vec![0, 2], vec![0]));
    assert_eq!(ran.outside, spilled(64));
    let plain = plain_of(&parts);
    assert_eq!((plain.answer.stop, locations(plain.answer.plain)), (Stop::Finished, vec![0]));
    // With window 0 the store is never the next step.
    let ran = run_of(&JobParts { window: 0, ..parts });
    assert_eq!((ran.answer.stop, sets(&ran.answer)), (Stop::Finished, (vec![0], vec![0])));
}

/// The set of a stopping store that is already in the plain set stays there.
#[test]
fn a_stopping_store_takes_nothing_from_the_plain_set() {
    let program = vec![load(6, &[R(2)]), beqz(0, 67), store(3, &[R(2), R(4), ADD])];
    let ran = run_of(&after_spills(64, program));
    assert_eq!(ran.answer.stop, Stop::OutsideFull);
    assert_eq!(sets(&ran.answer), (vec![0, 2, 4], vec![0, 2]));
}

/// The entries of the live wrong path count among the 64, and the end area shows them.
#[test]
fn the_64_count_at_one_time() {
    let wrong_path = [vec![beqz(0, 66)], spills(65)[60..].to_vec()].concat();
    let parts = after_spills(60, wrong_path);
    let ran = run_of(&JobParts { window: 5, ..parts.clone() });
    assert_eq!((ran.answer.stop, ran.answer.steps), (Stop::OutsideFull, 65));
    assert_eq!(ran.outside, spilled(64));
    // A window of 4 rolls the fourth store back before the fifth is made.
    let ran = run_of(&JobParts { window: 4, ..parts });
    assert_eq!((ran.answer.stop, ran.answer.steps), (Stop::Finished, 66));
    assert_eq!(ran.outside, spilled(60));
}

#[test]
fn a_rollback_frees_the_entry_of_its_wrong_path() {
    let program = vec![beqz(0, 65), store(3, &[C(3_000)]), store(3, &[R(2)])];
    let parts = JobParts { window: 1, ..after_spills(63, program) };
    let ran = run_of(&parts);
    assert_eq!((ran.answer.stop, ran.answer.steps), (Stop::Finished, 67));
    assert_eq!(
        ran.trace[63..],
        observed("start 0, pc 64, store 3000, rollback 0, pc 65, store 2000")
    );
    assert_eq!(ran.outside, [spilled(63), vec![(2_000, 7)]].concat());
    assert_eq!(plain_of(&parts).outside, ran.outside);
    // The store after the rollback is the 65th at one time where the branch finds 64.
    let program = vec![beqz(0, 66), store(3, &[C(1_000)]), store(3, &[R(2)])];
    let ran = run_of(&JobParts { window: 1, ..after_spills(64, program) });
    assert_eq!((ran.answer.stop, ran.answer.rollbacks), (Stop::OutsideFull, 1));
    assert_eq!((ran.outside, sets(&ran.answer)), (spilled(64), (vec![0, 2], vec![0, 2])));
}

/// Seventy addresses in one run, each on a wrong path of its own.
#[test]
fn wrong_paths_leave_no_entry() {
    let branch = |k: u16| [beqz(0, 2 * k + 2), store(1, &[C(1_000 + u64::from(k))])];
    let program: Vec<Vec<u8>> = (0..70).flat_map(branch).collect();
    let ran = run_of(&JobParts { window: 1, ..spilling(program, 0) });
    assert_eq!((ran.answer.stop, ran.answer.rollbacks), (Stop::Finished, 70));
    assert_eq!(ran.trace.iter().filter(|(kind, _)| *kind == STORE).count(), 70);
    assert_eq!(ran.outside, []);
}

/// The wrong path's own loads find the word; after the rollback the address reads 0.
#[test]
fn an_address_first_stored_on_a_wrong_path() {
    let program = vec![
        beqz(0, 4),
        store(1, &[C(2_000)]),
        load(4, &[C(2_000)]),
        load(6, &[R(4)]),
        load(4, &[R(2)]),
        load(6, &[R(4), C(100), ADD]),
    ];
    let ran = run_of(&JobParts { window: 3, ..spilling(program.clone(), 2) });
    let trace = observed(
        "start 0, pc 1, store 2000, load 2000, load 5, rollback 0, pc 4, load 2000, load 100",
    );
    assert_eq!((ran.trace, ran.answer.stop), (trace, Stop::Finished));
    assert_eq!(sets(&ran.answer), (vec![0, 1, 2], vec![0, 2]));
    assert_eq!((ran.end[4], ran.outside), (0, vec![]));
    // Register 1 comes into D through the wrong path's own load alone.
    let ran = run_of(&JobParts { window: 1, ..spilling(program, 2) });
    assert_eq!(ran.trace[5..], observed("load 2000, load 100"));
    assert_eq!((sets(&ran.answer), ran.outside), ((vec![0, 2], vec![0, 2]), vec![]));
}

#[test]
fn a_rollback_restores_a_replaced_word_with_its_set() {
    let program =
        vec![store(1, &[C(9)]), beqz(0, 3), store(3, &[C(9)]), load(4, &[C(9)]), load(6, &[R(4)])];
    let ran = run_of(&JobParts { window: 1, ..spilling(program.clone(), 2) });
    let trace = observed("store 9, start 0, pc 2, store 9, rollback 0, pc 3, load 9, load 5");
    assert_eq!((ran.trace, ran.outside), (trace, vec![(9, 5)]));
    assert_eq!(sets(&ran.answer), (vec![0, 1], vec![0, 1]));
    // Before the rollback the new word is read, and its set joins D.
    let parts = JobParts { window: 3, ..spilling(program, 2) };
    let ran = run_of(&parts);
    assert_eq!(ran.trace[3..6], observed("store 9, load 9, load 7"));
    assert_eq!((sets(&ran.answer), &ran.outside), ((vec![0, 1, 3], vec![0, 1]), &vec![(9, 5)]));
    // A run that is spent inside the wrong path shows the new word.
    let ran = run_of(&JobParts { budget: 3, ..parts });
    assert_eq!((ran.answer.stop, ran.outside), (Stop::Spent, vec![(9, 7)]));
}

/// Each rollback restores the table of its own opening, the count and the order too.
#[test]
fn nested_rollbacks_restore_their_tables() {
    let program = vec![
        store(1, &[C(10)]),
        beqz(0, 7),
        store(3, &[C(20)]),
        beqz(0, 6),
        store(3, &[C(10)]),
        store(3, &[C(30)]),
        spbarr(),
        store(1, &[C(40)]),
        store(1, &[C(20)]),
    ];
    let parts = spilling(program, 2);
    let table_after = |budget| run_of(&JobParts { budget, ..parts.clone() }).outside;
    assert_eq!(table_after(3), [(10, 5), (20, 7)]);
    assert_eq!(table_after(6), [(10, 7), (20, 7), (30, 7)]);
    // The barrier closes the inner branch; after its rollback another closes the outer one.
    assert_eq!(table_after(8), [(10, 5), (20, 7)]);
    assert_eq!(table_after(10), [(10, 5)]);
    let ran = run_of(&parts);
    assert_eq!((ran.answer.stop, ran.answer.steps), (Stop::Finished, 12));
    assert_eq!(ran.outside, [(10, 5), (40, 5), (20, 5)]);
}

/// Finished, spent, trace full, outside full; only the last adds the store's set.
#[test]
fn order_of_the_stops() {
    let parts = after_spills(64, vec![store(3, &[R(2)])]);
    let stopped = |budget, words| {
        let ran = straight_in(&JobParts { budget, ..parts.clone() }, words);
        assert_eq!((ran.answer.steps, ran.trace.len()), (64, 64));
        assert_eq!(ran.outside, spilled(64));
        (ran.answer.stop, locations(ran.answer.depends))
    };
    assert_eq!(stopped(65, 130), (Stop::OutsideFull, vec![2]));
    assert_eq!(stopped(65, 129), (Stop::TraceFull, vec![]));
    assert_eq!(stopped(65, 128), (Stop::TraceFull, vec![]));
    assert_eq!(stopped(64, 130), (Stop::Spent, vec![]));
    assert_eq!(stopped(64, 128), (Stop::Spent, vec![]));
    let finished = straight_in(&JobParts { budget: 64, ..spilling(spills(64), 2) }, 128);
    assert_eq!(finished.answer.stop, Stop::Finished);
}

#[test]
fn order_of_the_stops_on_a_wrong_path() {
    let parts = after_spills(64, vec![beqz(0, 66), store(3, &[R(2)])]);
    let stopped = |budget, words| {
        let ran = run_in(&JobParts { budget, ..parts.clone() }, words);
        assert_eq!((ran.answer.steps, ran.trace.len()), (65, 66));
        assert_eq!((ran.outside, locations(ran.answer.plain)), (spilled(64), vec![0]));
        (ran.answer.stop, locations(ran.answer.depends))
    };
    assert_eq!(stopped(66, 134), (Stop::OutsideFull, vec![0, 2]));
    assert_eq!(stopped(66, 133), (Stop::TraceFull, vec![0]));
    assert_eq!(stopped(66, 132), (Stop::TraceFull, vec![0]));
    assert_eq!(stopped(65, 134), (Stop::Spent, vec![0]));
    assert_eq!(stopped(65, 132), (Stop::Spent, vec![0]));
}

/// The refusal of a run with an end area of that many words, the same for the plain run;
/// refused calls leave all areas as they were.
fn refusal_with_end(parts: &JobParts, end_words: usize) -> u32 {
    let areas = || [area(64), area(end_words), area(WORK)];
    let ([mut trace, mut end, mut work], bytes) = (areas(), parts.bytes());
    let refusal = run(&bytes, &WINDOW_COSTS, &mut trace, &mut end, &mut work).err();
    let [mut plain_trace, mut plain_end, mut plain_work] = areas();
    let plain = plain_run(&bytes, &mut plain_trace, &mut plain_end, &mut plain_work).err();
    assert_eq!(refusal, plain);
    if refusal.is_some() {
        assert_eq!([trace, end, work], areas());
        assert_eq!([plain_trace, plain_end, plain_work], areas());
    }
    refusal.unwrap_or(0)
}

#[test]
fn refusal_10_uses_the_new_length() {
    for m in [0, 1, 2, 240] {
        for program in [vec![skip()], vec![store(1, &[C(m as u64)])]] {
            let refusal = |end_words| refusal_with_end(&spilling(program.clone(), m), end_words);
            let length = 16 + m + 129;
            assert_eq!((refusal(length), refusal(length + 1)), (0, 0));
            assert_eq!((refusal(length - 1), refusal(16 + m), refusal(0)), (10, 10, 10));
        }
    }
    let public_outside = JobParts { public: vec![18], ..spilling(vec![skip()], 2) };
    assert_eq!(refusal_with_end(&public_outside, 146), 8, "8 comes before 10");
}

/// The 129 words are always written, and none after them.
#[test]
fn an_end_area_word_by_word() {
    for (program, table) in [
        (vec![skip()], vec![0]),
        (vec![store(1, &[C(MAX)]), store(3, &[C(9)])], vec![2, MAX, 5, 9, 7]),
    ] {
        let parts = spilling(program, 1);
        let (mut trace, mut end, mut work) = (area(64), area(150), area(WORK));
        run(&parts.bytes(), &WINDOW_COSTS, &mut trace, &mut end, &mut work).expect("accepted");
        let mut words = [parts.registers.to_vec(), parts.cells, table].concat();
        words.resize(146, 0);
        assert_eq!(end, area_with(&words, 150));
    }
}

#[test]
fn verdicts_through_a_remembered_word() {
    // Register 1 is stored outside; a wrong path and then the plain path use it as an address.
    let leak = [load(4, &[C(9)]), load(6, &[R(4)])];
    let on_wrong_path = [vec![store(1, &[C(9)]), beqz(0, 4)], leak.to_vec()].concat();
    let in_plain_run = [vec![store(1, &[C(9)])], leak.to_vec()].concat();
    let verdict = |program: &Vec<Vec<u8>>, public: &[usize]| {
        let parts = JobParts { public: public.to_vec(), ..spilling(program.clone(), 0) };
        run_of(&parts).answer.verdict
    };
    assert_eq!(verdict(&on_wrong_path, &[0]), Verdict::Speculative);
    assert_eq!(verdict(&on_wrong_path, &[0, 1]), Verdict::Clean);
    assert_eq!(verdict(&in_plain_run, &[0]), Verdict::Plain);
    assert_eq!(verdict(&in_plain_run, &[1]), Verdict::Clean);
    let all: Vec<usize> = (0..16).collect();
    assert_eq!(verdict(&spills(65), &all), Verdict::Undecided);
}

#[test]
fn listing_of_a_run_that_is_outside_full() {
    let text = |parts: &JobParts| String::from_utf8(listing(&parts.bytes())).unwrap();
    let stores: String = (1_000..1_064).map(|address| format!("store {address}\n")).collect();
    let straight = text(&after_spills(64, vec![store(3, &[R(2)])]));
    let rest =
        "stop outside full\nsteps 64\nrollbacks 0\ndepends r2\nplain r2\nverdict undecided\n\
first r2 64 store 64\n";
    assert_eq!(straight, stores.clone() + rest);
    let wrong_path = text(&after_spills(64, vec![beqz(0, 66), store(3, &[R(2)])]));
    let rest =
        "start 0\npc 65\nstop outside full\nsteps 65\nrollbacks 0\ndepends r0 r2\nplain r0\n\
verdict undecided\nfirst r0 64 branch 64\nfirst r2 66 store 65\n";
    assert_eq!(wrong_path, stores + rest);
}

/// The word and the two stops of a pair whose second state has another word in one register.
fn pair_with(parts: &JobParts, register: usize, word: u64) -> (PairWord, Stop, Stop) {
    let mut second = parts.clone();
    second.registers[register] = word;
    let (answer, first_trace, second_trace) = pair_of(parts, &second, 1_024);
    assert_eq!(first_trace, run_of(parts).trace);
    assert_eq!(second_trace, run_of(&second).trace);
    (answer.word, answer.first.stop, answer.second.stop)
}

/// The second run finds none of the 64 addresses of the first.
#[test]
fn both_runs_of_a_pair_start_with_nothing_outside() {
    let mut parts = job((0..64).map(|k| store(1, &[R(2), C(k), ADD])).collect(), 0);
    parts.registers[2] = 1_000;
    let finished = (PairWord::PlainDiffers, Stop::Finished, Stop::Finished);
    assert_eq!(pair_with(&parts, 2, 2_000), finished);
    // A load before the first store reads 0 in both runs, and the traces are equal.
    let program = vec![load(4, &[C(9)]), load(6, &[R(4)]), store(1, &[C(9)])];
    let equal = (PairWord::Equal, Stop::Finished, Stop::Finished);
    assert_eq!(pair_with(&spilling(program, 0), 1, 6), equal);
}

#[test]
fn words_of_a_pair_through_remembered_words() {
    let leak = [load(4, &[C(9)]), load(6, &[R(4)])];
    let on_wrong_path = [vec![store(1, &[C(9)]), beqz(0, 4)], leak.to_vec()].concat();
    let in_plain_run = [vec![store(1, &[C(9)])], leak.to_vec()].concat();
    let word = |program: Vec<Vec<u8>>| pair_with(&spilling(program, 0), 1, 6).0;
    assert_eq!(word(on_wrong_path), PairWord::LeakShown);
    assert_eq!(word(in_plain_run), PairWord::PlainDiffers);
    // A remembered word that decides no address is not observed.
    assert_eq!(word(vec![store(1, &[C(9)]), load(4, &[C(9)])]), PairWord::Equal);
}

/// Register 2 is the address of the last store: remembered, or the 65th.
#[test]
fn a_pair_with_a_run_that_is_outside_full() {
    let mut parts = after_spills(64, vec![store(3, &[R(2)])]);
    let (full, finished) = (Stop::OutsideFull, Stop::Finished);
    assert_eq!(pair_with(&parts, 2, 3_000), (PairWord::Undecided, full, full));
    assert_eq!(pair_with(&parts, 2, 1_000), (PairWord::Undecided, full, finished));
    parts.registers[2] = 1_000;
    assert_eq!(pair_with(&parts, 2, 3_000), (PairWord::Undecided, finished, full));
    assert_eq!(pair_with(&parts, 2, 1), (PairWord::PlainDiffers, finished, finished));
    parts.public = vec![2];
    assert_eq!(pair_with(&parts, 2, 3_000), (PairWord::NotComparable, finished, full));
}

/// A pair has no end area, so its area test is as before.
#[test]
fn areas_of_a_pair_are_as_before() {
    let parts = spilling(spills(1), 0);
    let (mut first, mut second, mut work) = (area(2), area(2), area(WORK));
    let state = parts.state_bytes();
    let answer = compare(&parts.bytes(), &state, &WINDOW_COSTS, &mut first, &mut second, &mut work);
    assert_eq!(answer.expect("accepted").word, PairWord::Equal);
    assert_eq!((first, second), (vec![STORE, 1_000], vec![STORE, 1_000]));
    assert_eq!(work, vec![0; WORK]);
}

/// The own run's counts are all the answer; second trace and state are as they were.
#[test]
fn a_test_load_whose_own_run_is_outside_full() {
    let wrong_path = vec![beqz(0, 66), store(3, &[R(2)])];
    for (program, steps, observations) in [(vec![store(3, &[R(2)])], 64, 64), (wrong_path, 65, 66)]
    {
        let parts = after_spills(64, program);
        let (mut first, mut second, mut work) = (area(200), area(200), area(WORK));
        let (job, mut state) = (parts.bytes(), byte_area(150));
        let answer =
            test_load(&job, 1, &WINDOW_COSTS, &mut first, &mut second, &mut work, &mut state)
                .expect("accepted");
        let counts = RunCounts { stop: Stop::OutsideFull, steps, rollbacks: 0, observations };
        assert_eq!((answer.word, answer.first), (PairWord::Undecided, counts));
        assert_eq!(answer.second, None);
        let written_words = written(&first, 2 * observations as usize);
        assert_eq!(pairs(&written_words), run_of(&parts).trace);
        assert_eq!((second, state), (area(200), byte_area(150)));
        assert_eq!(work, vec![0; WORK]);
    }
}

/// Register 2 takes a new word, so that the wrong path's store needs a 65th address.
#[test]
fn a_test_load_whose_second_run_is_outside_full() {
    let mut parts = after_spills(64, vec![beqz(0, 66), store(3, &[R(2)])]);
    parts.registers[2] = 1_000;
    let (mut first, mut second, mut work) = (area(200), area(200), area(WORK));
    let (job, mut state) = (parts.bytes(), byte_area(150));
    let answer = test_load(&job, 1, &WINDOW_COSTS, &mut first, &mut second, &mut work, &mut state)
        .expect("accepted");
    let own = RunCounts { stop: Stop::Finished, steps: 67, rollbacks: 1, observations: 69 };
    let new = RunCounts { stop: Stop::OutsideFull, steps: 65, rollbacks: 0, observations: 66 };
    assert_eq!((answer.word, answer.first), (PairWord::Undecided, own));
    assert_eq!(answer.second, Some(new));
    assert_eq!(written(&second, 132), first[..132]);
}

/// The addresses that a trace leaves remembered, and the largest count on the way.
fn addresses_by_trace(trace: &[(u64, u64)], m: usize) -> (Vec<u64>, usize) {
    let (mut table, mut saved, mut largest) = (Vec::new(), Vec::new(), 0);
    for &(kind, value) in trace {
        match kind {
            START => saved.push(table.clone()),
            ROLLBACK => table = saved.pop().expect("an open branch"),
            STORE if value >= m as u64 && !table.contains(&value) => table.push(value),
            _ => {}
        }
        largest = largest.max(table.len());
    }
    (table, largest)
}

fn addresses(ran: &Ran<RunAnswer>) -> Vec<u64> {
    ran.outside.iter().map(|&(address, _)| address).collect()
}

const JOBS: usize = 10_000;

/// Every second job starts with a table that is full but for a few entries.
fn random_job(random: &mut Random, index: usize) -> JobParts {
    if index.is_multiple_of(2) {
        random.job()
    } else {
        random.spilling_job()
    }
}

#[test]
fn the_table_is_that_of_the_stores_observed() {
    let mut random = Random(6);
    let (mut full, mut on_wrong_path) = (0, 0);
    for index in 0..JOBS {
        let parts = random_job(&mut random, index);
        let ran = run_of(&parts);
        let (table, largest) = addresses_by_trace(&ran.trace, parts.cells.len());
        assert_eq!(addresses(&ran), table);
        assert!(largest <= 64);
        if ran.answer.stop == Stop::OutsideFull {
            assert_eq!((table.len(), ran.answer.verdict), (64, Verdict::Undecided));
            full += 1;
            on_wrong_path += usize::from(plain_of(&parts).answer.stop != Stop::OutsideFull);
        }
    }
    assert!(full > 500 && on_wrong_path > 50, "only {full} and {on_wrong_path} outside full");
}

/// At the step of the stop the budget and the trace area are looked at first, and then the
/// store's set is in neither D nor the plain set.
#[test]
fn outside_full_is_tried_last() {
    let mut random = Random(7);
    let (mut full, mut sets_grew) = (0, 0);
    for _ in 0..JOBS {
        let parts = random.spilling_job();
        let ran = run_of(&parts);
        if ran.answer.stop != Stop::OutsideFull {
            continue;
        }
        full += 1;
        let spent = run_of(&JobParts { budget: ran.answer.steps as u32, ..parts.clone() });
        let no_room = run_in(&parts, 2 * ran.trace.len() + 1);
        assert_eq!((spent.answer.stop, no_room.answer.stop), (Stop::Spent, Stop::TraceFull));
        assert_eq!(spent.answer.depends, no_room.answer.depends);
        assert_eq!(spent.answer.plain, no_room.answer.plain);
        sets_grew += usize::from(spent.answer.depends != ran.answer.depends);
        for stopped in [spent, no_room] {
            assert_eq!(stopped.answer.steps, ran.answer.steps);
            assert_eq!((&stopped.trace, &stopped.end), (&ran.trace, &ran.end));
            assert_eq!(stopped.outside, ran.outside);
        }
    }
    assert!(full > 500 && sets_grew > 50, "only {full} and {sets_grew}");
}

/// Demand 2 with the table: a run that finishes, or is outside full with nothing open, stops as
/// the plain run does.
#[test]
fn strike_out_is_the_plain_trace() {
    let mut random = Random(8);
    let (mut finished, mut full) = (0, 0);
    for _ in 0..JOBS {
        let parts = random.spilling_job();
        let (ran, plain) = (run_of(&parts), plain_of(&parts));
        let struck = strike_out(&ran.trace);
        assert_eq!(struck[..], plain.trace[..struck.len()]);
        let starts = ran.trace.iter().filter(|(kind, _)| *kind == START).count() as u64;
        let nothing_open = starts == ran.answer.rollbacks;
        match ran.answer.stop {
            Stop::Finished => finished += 1,
            Stop::OutsideFull if nothing_open => full += 1,
            _ => continue,
        }
        assert_eq!((ran.answer.stop, struck), (plain.answer.stop, plain.trace));
        assert_eq!((ran.end, ran.outside), (plain.end, plain.outside));
        assert_eq!(ran.answer.plain, plain.answer.plain);
    }
    assert!(finished > 500 && full > 500, "only {finished} finished, {full} full");
}

/// Another state that agrees with the job's in D.
fn alike_in(depends: [u64; 4], parts: &JobParts, random: &mut Random) -> JobParts {
    let (kept, mut second) = (locations(depends), parts.clone());
    let words = second.registers.iter_mut().chain(&mut second.cells);
    for (location, word) in words.enumerate() {
        if !kept.contains(&location) {
            *word = random.below(4);
        }
    }
    second
}

/// Whether the set of the entry at an address lies within D, asked of a finished run by two more
/// instructions: the plain set of the longer program then has that set besides its own.
/// None where a jump beyond END goes past the first of the two.
fn set_lies_within(depends: [u64; 4], parts: &JobParts, address: u64) -> Option<bool> {
    let mut longer = JobParts { budget: parts.budget + 2, ..parts.clone() };
    longer.program.extend([load(15, &[C(address)]), load(15, &[R(15)])]);
    let (plain, more) = (plain_of(parts), plain_of(&longer));
    let count = plain.trace.len();
    let asked = more.trace.get(..count) == Some(&plain.trace)
        && more.trace.get(count) == Some(&(LOAD, address));
    let within =
        more.answer.plain.iter().zip(depends).all(|(plain, depends)| plain & !depends == 0);
    asked.then_some(within)
}

/// Demand 3 stands, whatever the stop, and remembered cells whose set lies in D hold the same.
#[test]
fn states_alike_in_the_dependency_set() {
    let mut random = Random(9);
    let (mut full, mut within, mut differing) = (0, 0, 0);
    for index in 0..JOBS {
        let parts = random_job(&mut random, index);
        let ran = run_of(&parts);
        let second = alike_in(ran.answer.depends, &parts, &mut random);
        let other = run_of(&second);
        assert_eq!((&ran.answer, &ran.trace), (&other.answer, &other.trace));
        assert_eq!(addresses(&ran), addresses(&other));
        full += usize::from(ran.answer.stop == Stop::OutsideFull);
        if ran.answer.stop != Stop::Finished {
            continue;
        }
        let entries = ran.outside.iter().zip(&other.outside);
        for (&(address, value), &(_, other_value)) in entries.take(8) {
            if set_lies_within(ran.answer.depends, &parts, address) == Some(true) {
                assert_eq!(value, other_value);
                within += 1;
            } else {
                differing += usize::from(value != other_value);
            }
        }
    }
    assert!(full > 500 && within > 500 && differing > 500, "only {full}, {within}, {differing}");
}
