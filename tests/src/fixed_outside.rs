//! Fixed cases of stores outside memory: around 64 addresses, with nothing open and on wrong paths; addresses that a
//! rollback frees and stores that it restores, with their sets; the stop as outside full at the same step as another
//! stop; what the stopping store adds to the sets; second runs, which start with nothing remembered; long wrong paths.

use crate::calls::Lengths;
use crate::fixed::{case_of, raw_case, Cases, ROOMY};
use crate::job_file::{
    assign, beqz, conditional, load, skip, spbarr, state_bytes, store, Instruction, Parts, Token,
    ADD, AND, MUL, REGISTERS, XOR,
};

pub fn add(cases: &mut Cases) {
    counts_around_the_limit(cases);
    counts_on_wrong_paths(cases);
    freed_by_a_rollback(cases);
    freed_by_two_rollbacks(cases);
    restored_by_a_rollback(cases);
    full_table_used(cases);
    stops_at_one_step(cases);
    sets_of_the_stopping_store(cases);
    nothing_kept_for_the_second_run(cases);
    second_run_alone_is_full(cases);
    long_wrong_paths(cases);
    deep_nesting(cases);
}

fn r(register: u8) -> Token {
    Token::Register(register)
}

fn c(value: u64) -> Token {
    Token::Constant(value)
}

/// A job whose registers hold words that differ; r0 to r3 are 0 to be set by the case.
fn job(program: Vec<Instruction>, cells: usize, window: u16) -> Parts {
    let mut parts = Parts::new(program, cells, window, 1_400);
    for register in 4..REGISTERS {
        parts.state[register] = 100 + register as u64;
    }
    parts
}

/// The job with these words in its first registers.
fn with_registers(parts: &Parts, words: &[u64]) -> Parts {
    let mut parts = parts.clone();
    parts.state[..words.len()].copy_from_slice(words);
    parts
}

/// Stores at these addresses, of r4 to r15 in turn.
fn stores(addresses: impl IntoIterator<Item = u64>) -> Vec<Instruction> {
    let registers = (4..REGISTERS as u8).cycle();
    addresses.into_iter().zip(registers).map(|(address, from)| store(from, &[c(address)])).collect()
}

/// Loads at these addresses, each followed by one that shows its value and set.
fn shown(addresses: impl IntoIterator<Item = u64>) -> Vec<Instruction> {
    let pair = |address| [load(2, &[c(address)]), load(3, &[r(2)])];
    addresses.into_iter().flat_map(pair).collect()
}

/// So many addresses from the first on: ascending, descending or scattered. None is near 2^64.
fn orders(first: u64, count: u64) -> [Vec<u64>; 3] {
    let ascending: Vec<u64> = (first..first + count).collect();
    let descending = ascending.iter().rev().copied().collect();
    let scattered = (0..count).map(|number| first + number * 29 % 67 * 1_000_003).collect();
    [ascending, descending, scattered]
}

/// Addresses at the top, which go on at 0 where there are more of them.
fn at_the_top(count: u64) -> Vec<u64> {
    (0..count).map(|number| (u64::MAX - 63).wrapping_add(number)).collect()
}

/// Around 64 addresses stored to with nothing open, and then some loaded: one is never stored to.
fn counts_around_the_limit(cases: &mut Cases) {
    for cells in [0, 1, 4, 239, 240] {
        for count in [0, 1, 2, 3, 62, 63, 64, 65, 66] {
            let mut all = orders(cells, count).to_vec();
            all.push(at_the_top(count));
            for addresses in all {
                let mut program = stores(addresses.iter().copied());
                let seen = [addresses.first(), addresses.last(), Some(&1_000)];
                program.extend(shown(seen.into_iter().flatten().copied()));
                cases.push(case_of(&job(program, cells as usize, 5), ROOMY));
            }
        }
    }
}

/// The same on a wrong path, where r0 is 0; elsewhere the loads are on the wrong path, before the stores.
fn counts_on_wrong_paths(cases: &mut Cases) {
    for cells in [0, 5, 240] {
        for count in [1, 2, 63, 64, 65, 66] {
            for addresses in [orders(cells, count)[2].clone(), at_the_top(count)] {
                let mut program = vec![beqz(0, count as u16 + 2)];
                program.extend(stores(addresses.iter().copied()));
                program.push(skip());
                let seen = [addresses[0], addresses[count as usize - 1], 1_000];
                program.extend(shown(seen));
                for window in [0, 1, count as u16 - 1, count as u16, count as u16 + 1, 200] {
                    let parts = job(program.clone(), cells as usize, window);
                    for zero in [0, 1] {
                        cases.push(case_of(&with_registers(&parts, &[zero]), ROOMY));
                    }
                }
            }
        }
    }
}

/// 60 addresses, then up to 6 more on a wrong path, then up to 5 others in their stead: the 65th address of a wrong
/// path stops the run, and 64 of the path that is left do not count with those that were rolled back.
fn freed_by_a_rollback(cases: &mut Cases) {
    for wrong in 3..=6 {
        for right in 3..=5 {
            let mut program = stores(0..60);
            program.push(beqz(0, 60 + 1 + wrong));
            program.extend(stores(500..500 + u64::from(wrong)));
            program.extend(stores(700..700 + right));
            program.extend(shown([500, 700, 0]));
            for window in [0, 1, 3, 4, 5, 6, 7, 20] {
                let parts = job(program.clone(), 0, window);
                for zero in [0, 1] {
                    cases.push(case_of(&with_registers(&parts, &[zero]), ROOMY));
                }
            }
        }
    }
}

/// The same with a branch inside: what the inner one adds goes with it, what the outer one adds stays until its own
/// rollback.
fn freed_by_two_rollbacks(cases: &mut Cases) {
    for first in [57, 58, 59, 60] {
        let mut program = stores(0..first);
        program.push(beqz(0, first as u16 + 10));
        program.extend(stores([500, 501, first - 1]));
        program.push(beqz(1, first as u16 + 8));
        program.extend(stores([600, 601, 500]));
        program.extend(stores([700, 701]));
        program.extend(stores([800, 801, 802, 803]));
        program.extend(shown([500, 600, 700, first - 1]));
        for window in [0, 3, 4, 5, 6, 7, 8, 9, 12, 200] {
            let parts = job(program.clone(), 0, window);
            for registers in [[0, 0], [0, 1], [1, 0], [1, 1]] {
                cases.push(case_of(&with_registers(&parts, &registers), ROOMY));
            }
        }
    }
}

/// Stores and loads at one address, or two, outside: r0 and r1 are the branches, r4 and r5 what is stored.
fn restoring_programs(address: u64) -> Vec<Vec<Instruction>> {
    let with_loads = |mut program: Vec<Instruction>| {
        program.extend(shown([address]));
        program
    };
    let mut programs = replacing_programs(address);
    programs.extend(copying_programs(address));
    programs.into_iter().map(with_loads).collect()
}

/// One address, stored at a place and replaced at another.
fn replacing_programs(address: u64) -> Vec<Vec<Instruction>> {
    let here = [c(address)];
    let also_here = [c(address), r(6), ADD];
    vec![
        // Stored on a wrong path alone, then loaded.
        vec![beqz(0, 2), store(4, &here)],
        // Replaced on a wrong path.
        vec![store(4, &here), beqz(0, 3), store(5, &here)],
        // Replaced twice on a wrong path.
        vec![store(4, &here), beqz(0, 4), store(5, &here), store(6, &here)],
        // Replaced on two wrong paths, one inside the other.
        vec![store(4, &here), beqz(0, 5), store(5, &here), beqz(1, 5), store(6, &here)],
        // First stored on the outer wrong path, replaced on the inner one.
        vec![beqz(0, 4), store(5, &here), beqz(1, 4), store(6, &here)],
        // Replaced with nothing open: the old set goes with the old value.
        vec![store(4, &here), store(5, &here)],
        // Stored where a register says, which is the same address.
        vec![store(4, &also_here), beqz(0, 3), store(5, &here)],
        // A barrier behind the store.
        vec![store(4, &here), beqz(0, 5), store(5, &here), spbarr(), store(6, &here)],
    ]
}

/// What was loaded is stored again, and a second address is stored at.
fn copying_programs(address: u64) -> Vec<Vec<Instruction>> {
    let here = [c(address)];
    let elsewhere = [c(address ^ 1), r(6), XOR];
    vec![
        // Replaced on a wrong path by what was loaded there.
        vec![
            store(4, &here),
            beqz(0, 5),
            load(5, &here),
            conditional(5, &[r(7)], &[r(8)]),
            store(5, &here),
        ],
        // Copied to a second address and from there.
        vec![
            store(4, &here),
            load(2, &here),
            store(2, &elsewhere),
            beqz(0, 5),
            store(5, &here),
            load(2, &elsewhere),
        ],
        // A second address between, so that the first is not the last entry.
        vec![
            store(4, &here),
            store(5, &elsewhere),
            beqz(0, 5),
            store(6, &here),
            store(7, &elsewhere),
        ],
    ]
}

/// A rollback gives back value and set. Two registers that are stored hold the same word at times, so that the sets
/// alone differ.
fn restored_by_a_rollback(cases: &mut Cases) {
    for cells in [0, 5, 240] {
        let edges =
            [cells, cells + 1, 255, 256, 319, 1 << 32, u64::MAX - 16, u64::MAX - 15, u64::MAX];
        for program in edges.into_iter().flat_map(restoring_programs) {
            for window in [0, 1, 2, 3, 10] {
                for registers in [[0, 0], [0, 1], [1, 0]] {
                    let mut parts = job(program.clone(), cells as usize, window);
                    parts.state[6] = 0;
                    parts.state[5] = if registers[1] == 1 { parts.state[4] } else { 9 };
                    cases.push(case_of(&with_registers(&parts, &registers), ROOMY));
                }
            }
        }
    }
}

/// With 64 addresses remembered, what needs no further entry: the same addresses again, loads of any, stores inside
/// memory; and with a branch open, where r0 is 0.
fn full_table_used(cases: &mut Cases) {
    for cells in [0, 3] {
        let first = cells as u64;
        let after: [Vec<Instruction>; 5] = [
            stores(first..first + 64),
            shown([first, first + 63, first + 64, u64::MAX]),
            vec![store(5, &[c(0)]), load(2, &[c(0)]), load(3, &[r(2)])],
            vec![store(5, &[c(first + 64)])],
            vec![store(5, &[c(first + 63)]), load(2, &[c(first + 63)]), store(5, &[r(2)])],
        ];
        for more in after {
            let mut program = stores(first..first + 64);
            program.push(beqz(0, 65 + more.len() as u16 + 1));
            program.extend(more.clone());
            program.push(skip());
            program.extend(more);
            program.extend(shown([first, first + 63]));
            for window in [0, 3, 200] {
                let parts = job(program.clone(), cells, window);
                for zero in [0, 1] {
                    cases.push(case_of(&with_registers(&parts, &[zero]), ROOMY));
                }
            }
        }
    }
}

/// The 65th store at every budget and length of trace around the step at which the table is full: it is then spent,
/// trace full or outside full. The address of that store is r2, so that the sets show whether it was looked at. With
/// a branch before the stores, r0 is 0 and they are on a wrong path.
fn stops_at_one_step(cases: &mut Cases) {
    for branches in [0, 1, 2] {
        let mut program: Vec<Instruction> = vec![beqz(0, 100); branches];
        program.extend(stores(0..64));
        program.push(store(5, &[r(2)]));
        program.resize(101, skip());
        for last in [64, 63] {
            let parts = with_registers(&job(program.clone(), 0, 200), &[0, 0, last]);
            let (steps, words) = (64 + branches, 2 * (64 + 2 * branches));
            for budget in steps - 1..=steps + 2 {
                for trace in words - 2..=words + 4 {
                    let parts = Parts { budget: budget as u32, ..parts.clone() };
                    let lengths = Lengths { trace, second_trace: trace, ..ROOMY };
                    cases.push(case_of(&parts, lengths));
                }
            }
        }
    }
}

/// The address's set joins D, and the plain set with nothing open; the set of what is stored joins neither. The address
/// is a register, a sum, what a load gave, or what a remembered store held.
fn sets_of_the_stopping_store(cases: &mut Cases) {
    let addresses: [(Vec<Instruction>, Vec<Token>); 4] = [
        (vec![], vec![r(2)]),
        (vec![], vec![r(2), r(3), ADD]),
        (vec![load(1, &[c(0)])], vec![r(1), c(2_000), ADD]),
        (vec![load(1, &[c(1_000)])], vec![r(1), c(2_000), ADD]),
    ];
    for (before, address) in addresses {
        for branches in [0, 1, 2] {
            for stored in [63, 64] {
                let mut program = stores(1_000..1_000 + stored);
                program.extend(before.clone());
                let end = (program.len() + branches + 2) as u16;
                program.extend(vec![beqz(0, end); branches]);
                program.extend([store(9, &address), skip()]);
                for window in [0, 1, 2, 50] {
                    let mut parts =
                        with_registers(&job(program.clone(), 3, window), &[0, 7, 3_000, 1]);
                    cases.push(case_of(&parts, ROOMY));
                    parts.public = vec![0, 1, 3];
                    cases.push(case_of(&parts, ROOMY));
                }
            }
        }
    }
}

/// Programs that a table kept from another run would show: a load before the first store to its address, which is on
/// the plain path or on a wrong one; the same with r9 in what it shows, so that two plain runs would differ; and 40
/// addresses that move with r4.
fn unprepared_programs() -> [Vec<Instruction>; 5] {
    let here = 5_000;
    let mut on_wrong_path = vec![beqz(0, 4)];
    on_wrong_path.extend(shown([here]));
    on_wrong_path.extend([store(5, &[c(here)]), skip()]);
    let moving = |number: u64| store(5, &[r(4), c(7_000 + number), ADD]);
    let mut moved_on_wrong_path = vec![beqz(0, 41)];
    moved_on_wrong_path.extend((0..40).map(moving));
    moved_on_wrong_path.push(skip());
    [
        [shown([here]), stores([here])].concat(),
        vec![load(2, &[c(here)]), load(3, &[r(2), r(9), AND]), store(5, &[c(here)])],
        on_wrong_path,
        (0..40).map(moving).collect(),
        moved_on_wrong_path,
    ]
}

/// The second run of a pair and of a test load starts with nothing remembered, and so do the plain runs of a pair.
fn nothing_kept_for_the_second_run(cases: &mut Cases) {
    for program in unprepared_programs() {
        for window in [0, 3, 60] {
            let parts = job(program.clone(), 2, window);
            for register in [0, 4, 5, 9, 12] {
                let mut second = parts.state.clone();
                second[register] ^= 0x1_0001;
                cases.push(raw_case(parts.bytes(), state_bytes(&second), ROOMY));
            }
        }
    }
}

/// With r4 = 0 the stores go to one address, else to as many as there are stores: in most second states of a pair and
/// of a test load, whose plain set has no r4 since the branch hides the stores.
fn second_run_alone_is_full(cases: &mut Cases) {
    for count in [63, 64, 65, 66] {
        for branch in [true, false] {
            let mut program = if branch { vec![beqz(0, count as u16 + 1)] } else { vec![] };
            let spread = |number: u64| store(5, &[r(4), c(number), MUL, c(9_000), ADD]);
            program.extend((0..count).map(spread));
            program.push(skip());
            let mut parts = job(program, 2, 200);
            parts.state[4] = 0;
            for word in [1, 2, 1 << 58, u64::MAX] {
                let mut second = parts.state.clone();
                second[4] = word;
                cases.push(raw_case(parts.bytes(), state_bytes(&second), ROOMY));
                let first = with_registers(&parts, &[0, 0, 0, 0, word]);
                cases.push(raw_case(first.bytes(), state_bytes(&parts.state), ROOMY));
            }
        }
    }
}

/// As many stores outside as the longest windows allow and beyond, over so many addresses, half of them remembered
/// before the branch.
fn long_wrong_paths(cases: &mut Cases) {
    for span in [1, 2, 30, 63, 64] {
        let mut program = stores(300..300 + span / 2);
        let branch = program.len() as u16;
        program.push(beqz(0, branch + 211));
        program.extend(stores((0..210).map(|number| 300 + number * 7 % span)));
        program.extend(shown([300, 301, 300 + span - 1]));
        for window in [0, 1, 2, 31, 32, 33, 63, 64, 65, 199, 200] {
            for cells in [0, 240] {
                let parts = job(program.clone(), cells, window);
                for zero in [0, 1] {
                    cases.push(case_of(&with_registers(&parts, &[zero]), ROOMY));
                }
            }
        }
    }
}

/// A branch back to the front opens more inside, each with a store of its own: r2 counts them, and the address is r2
/// in some of its bits. With few bits the stores are replaced, with many the table is full before the window is used.
fn deep_nesting(cases: &mut Cases) {
    for mask in [0, 1, 15, 63, 127] {
        let program = vec![
            assign(2, &[r(2), c(1), ADD]),
            store(2, &[r(2), c(mask), AND, c(1 << 20), ADD]),
            load(3, &[r(2), c(3), AND, c(1 << 20), ADD]),
            beqz(1, 0),
            store(3, &[r(3)]),
        ];
        for window in (0..=200).step_by(8).chain([199, 198]) {
            let parts = job(program.clone(), 6, window);
            cases.push(case_of(&with_registers(&parts, &[0, 1]), ROOMY));
        }
    }
}
