//! Damaged jobs: damage that leads to a chosen refusal, and damage without a plan.

use crate::job_file::{
    assign, beqz, conditional, field, jmp, load, set_budget, set_field, store, Field, Instruction,
    Parts, Token, ADD, MAX_BUDGET, MAX_JOB_BYTES, NEG, REGISTERS, TRAILER_BYTES,
};
use crate::random::Random;

/// Damages a valid job so that it is refused with this number, 1 to 8.
pub fn refused_with(number: u32, mut parts: Parts, random: &mut Random) -> Vec<u8> {
    damage_parts(number, &mut parts, random);
    let mut job = parts.bytes();
    damage_bytes(number, &mut job, random);
    job
}

/// Damages a valid job in two ways; the order of the tests decides which number it is refused with.
pub fn damaged_twice(mut parts: Parts, random: &mut Random) -> Vec<u8> {
    let numbers = [random.between(1, 8) as u32, random.between(2, 8) as u32];
    for number in numbers {
        damage_parts(number, &mut parts, random);
    }
    let mut job = parts.bytes();
    for number in numbers {
        if job.len() >= TRAILER_BYTES {
            damage_bytes(number, &mut job, random);
        }
    }
    job
}

/// The damage of refusals 4 to 8, which the parts of a job can express.
fn damage_parts(number: u32, parts: &mut Parts, random: &mut Random) {
    let own = random.index(parts.program.len());
    let end = parts.program.len() as u16;
    match number {
        4 => break_encoding(own, &mut parts.program, random),
        5 => parts.program[own] = with_bad_expression(random),
        6 => parts.program[own] = beqz(0, bad_label(own as u16, end, random)),
        7 => {
            let extra = random.between(1, 9);
            let last = parts.program.last_mut().expect("a job has an instruction");
            last.extend((0..extra).map(|_| random.below(30) as u8));
        }
        8 => add_bad_public_bit(parts, random),
        _ => {}
    }
}

fn break_encoding(own: usize, program: &mut [Instruction], random: &mut Random) {
    let register = Token::Register(3);
    let high_register = random.between(16, 255) as u8;
    let high_token = Token::Operator(random.between(29, 255) as u8);
    program[own] = match random.below(8) {
        0 => vec![random.between(8, 255) as u8],
        1 => assign(high_register, &[register]),
        2 => load(high_register, &[register]),
        3 => store(high_register, &[register]),
        4 => beqz(high_register, 0),
        5 => conditional(2, &[register], &[Token::Constant(1), high_token]),
        6 => assign(1, &vec![register; random.pick(&[0, 17, 18, 255])]),
        _ => {
            // The program then ends before its last field does, or before its last kind byte.
            let last = program.last_mut().expect("a job has an instruction");
            let kept = random.index(last.len().max(1));
            last.truncate(kept);
            return;
        }
    };
}

fn with_bad_expression(random: &mut Random) -> Instruction {
    let register = Token::Register(random.below(16) as u8);
    let good = [register];
    let bad = match random.below(6) {
        0 => vec![ADD],
        1 => vec![register, ADD],
        2 => vec![register, register],
        3 => vec![NEG, register],
        4 => [vec![register; 9], vec![ADD; 7]].concat(),
        _ => [vec![register; 8], vec![register]].concat(),
    };
    match random.below(6) {
        0 => assign(1, &bad),
        1 => load(1, &bad),
        2 => store(1, &bad),
        3 => jmp(&bad),
        4 => conditional(1, &bad, &good),
        _ => conditional(1, &good, &bad),
    }
}

fn bad_label(own: u16, end: u16, random: &mut Random) -> u16 {
    match random.below(4) {
        0 | 1 => own + 1,
        2 => end + 1,
        _ => random.between(u64::from(end) + 1, u64::from(u16::MAX)) as u16,
    }
}

/// With 240 cells every bit of the list is a location, so one cell is taken away then.
fn add_bad_public_bit(parts: &mut Parts, random: &mut Random) {
    if parts.state.len() == 256 {
        parts.state.pop();
        parts.public.retain(|&location| location < 255);
    }
    let first = parts.state.len();
    parts.public.push(if random.one_in(2) { first } else { first + random.index(256 - first) });
}

/// The damage of refusals 1 to 3, which is done to the file.
fn damage_bytes(number: u32, job: &mut Vec<u8>, random: &mut Random) {
    match number {
        1 => damage_length(job, random),
        2 => damage_trailer(job, random),
        3 => damage_offsets(job, random),
        _ => {}
    }
}

fn damage_length(job: &mut Vec<u8>, random: &mut Random) {
    if random.one_in(2) {
        let kept = random.index(TRAILER_BYTES);
        job.drain(..job.len() - kept);
    } else {
        let over = random.pick(&[1, 2, 100, 49_152, 60_000]);
        let padding = (MAX_JOB_BYTES + over).saturating_sub(job.len());
        job.splice(0..0, vec![0; padding]);
    }
}

fn damage_trailer(job: &mut [u8], random: &mut Random) {
    let high = |limit: u64, random: &mut Random| {
        let far = random.between(limit + 1, u64::from(u16::MAX));
        random.pick(&[limit + 1, limit + 1, far]) as u16
    };
    match random.below(6) {
        0 => set_field(job, Field::Instructions, 0),
        1 => set_field(job, Field::Instructions, high(512, random)),
        2 => set_field(job, Field::Cells, high(240, random)),
        3 => set_field(job, Field::Window, high(200, random)),
        4 => set_field(job, Field::Zero, high(0, random)),
        _ => {
            let far = random.between(u64::from(MAX_BUDGET) + 1, u64::from(u32::MAX)) as u32;
            set_budget(job, random.pick(&[MAX_BUDGET + 1, far]));
        }
    }
}

fn damage_offsets(job: &mut Vec<u8>, random: &mut Random) {
    let (state, list) = (field(job, Field::StateOffset), field(job, Field::ListOffset));
    let by = random.pick(&[1, 7, 8, 9, 128, 300]);
    match random.below(7) {
        0 => set_field(job, Field::StateOffset, state.wrapping_add(by)),
        1 => set_field(job, Field::StateOffset, state.wrapping_sub(by)),
        2 => set_field(job, Field::ListOffset, list.wrapping_add(by)),
        3 => set_field(job, Field::ListOffset, list.wrapping_sub(by)),
        4 => {
            set_field(job, Field::StateOffset, list);
            set_field(job, Field::ListOffset, state);
        }
        5 => {
            let cells = field(job, Field::Cells);
            set_field(job, Field::Cells, if cells > 0 { cells - 1 } else { 1 });
        }
        _ => *job = wrapped_offsets(random),
    }
}

/// A file whose offsets fit its length only if Q + 48 is taken modulo 2^16.
fn wrapped_offsets(random: &mut Random) -> Vec<u8> {
    let length = random.between(16, 47) as u16;
    let cells = random.below(5) as u16;
    let list = length.wrapping_sub(48);
    let mut job = vec![0; usize::from(length)];
    set_field(&mut job, Field::ListOffset, list);
    set_field(&mut job, Field::StateOffset, list - (8 * (REGISTERS as u16 + cells)));
    set_field(&mut job, Field::Instructions, 1);
    set_field(&mut job, Field::Cells, cells);
    job
}

/// Turns over up to three bits, half of the time in the program or the trailer.
pub fn flip_bits(job: &mut [u8], random: &mut Random) {
    for _ in 0..random.between(1, 3) {
        let at = random_place(job, random);
        job[at] ^= 1 << random.below(8);
    }
}

/// Puts random bytes in the place of up to twelve neighbours.
pub fn overwrite(job: &mut [u8], random: &mut Random) {
    let at = random_place(job, random);
    let count = random.between(1, 12) as usize;
    for byte in job.iter_mut().skip(at).take(count) {
        *byte = if random.one_in(2) { random.below(32) as u8 } else { random.word() as u8 };
    }
}

fn random_place(job: &[u8], random: &mut Random) -> usize {
    let program = usize::from(field(job, Field::StateOffset)).clamp(1, job.len());
    match random.below(4) {
        0 => random.index(program),
        1 => job.len() - 1 - random.index(TRAILER_BYTES),
        _ => random.index(job.len()),
    }
}

/// Takes bytes away from the front, the back or the middle.
pub fn truncate(job: &mut Vec<u8>, random: &mut Random) {
    let count = if random.one_in(2) { random.between(1, 16) } else { random.between(1, 400) };
    let count = (count as usize).min(job.len());
    let start = match random.below(3) {
        0 => 0,
        1 => job.len() - count,
        _ => random.index(job.len() - count + 1),
    };
    job.drain(start..start + count);
}
