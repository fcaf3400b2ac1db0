//! The fixed cases of the sets of expressions hold what they are there for. The runs are the
//! reference's.

use std::collections::{BTreeMap, BTreeSet};

use checker_tests::calls::{Operation, Outcome};
use checker_tests::demands::has;
use checker_tests::fixed::{case_of, ROOMY};
use checker_tests::fixed_sets::{add, jobs, states, zeros, SetJob, Way, LIKE_TOKENS, WAYS};
use checker_tests::job_file::{assign, Parts, Token, NEG, NOT, REGISTERS};
use checker_tests::outside_claims::OUTSIDE_FULL;

type Set = BTreeSet<usize>;

struct Ran {
    job: SetJob,
    run: Outcome,
}

fn all() -> Vec<Ran> {
    jobs().into_iter().map(ran).collect()
}

fn ran(job: SetJob) -> Ran {
    let run = case_of(&job.parts, ROOMY).call(Operation::Run, 0).by_reference();
    assert_eq!(run.number, 0, "a job that is refused");
    Ran { job, run }
}

impl Ran {
    fn set(&self, at: usize) -> Set {
        let words = self.run.answer()[at..at + 4].try_into().expect("four words");
        (0..256).filter(|&location| has(words, location)).collect()
    }

    fn depends(&self) -> Set {
        self.set(4)
    }

    fn plain(&self) -> Set {
        self.set(8)
    }

    /// The last word observed.
    fn value(&self) -> u64 {
        self.run.observations().last().expect("an observation").1
    }

    fn is_straight(&self) -> bool {
        self.job.branch.is_none()
    }
}

/// The set of each register before the expression; a cell's location is its address and 16.
fn set_of_register(register: u8) -> Set {
    let own = usize::from(register);
    let cell = REGISTERS + 15 * own;
    match register {
        0 | 4 | 8 | 12 => Set::from([own]),
        1 | 5 | 9 | 13 | 15 => Set::from([cell]),
        2 | 6 | 10 | 14 => Set::from([own, 255]),
        7 | 11 => Set::from([cell, 255]),
        _ => Set::new(),
    }
}

fn registers(tokens: &[Token]) -> impl Iterator<Item = u8> + '_ {
    tokens.iter().filter_map(|token| match *token {
        Token::Register(register) => Some(register),
        _ => None,
    })
}

fn set_of(tokens: &[Token]) -> Set {
    registers(tokens).flat_map(set_of_register).collect()
}

fn most_held(tokens: &[Token]) -> usize {
    let (mut held, mut most) = (0, 0);
    for token in tokens {
        match token {
            Token::Operator(17 | 18) => {}
            Token::Operator(_) => held -= 1,
            _ => held += 1,
        }
        most = most.max(held);
    }
    assert_eq!(held, 1, "the postfix rule");
    most
}

/// The cases are those of the jobs, and each job has the bytes of its expression in its program.
#[test]
fn cases_of_the_jobs() {
    let (mut cases, jobs) = (Vec::new(), jobs());
    add(&mut cases);
    assert_eq!(cases.len(), jobs.len());
    for (case, job) in cases.iter().zip(&jobs) {
        assert!(case.job == job.parts.bytes());
        let bytes = &assign(0, &job.tokens)[2..];
        let found = |instruction: &Vec<u8>| instruction.windows(bytes.len()).any(|at| at == bytes);
        assert!(job.parts.program.iter().any(found));
    }
}

/// The sets of the registers differ; each but r3's has a location that no other has; some overlap.
#[test]
fn sets_of_the_registers() {
    let sets: Vec<Set> = (0..16).map(set_of_register).collect();
    let others = |at: usize| (0..16).filter(move |&other| other != at);
    for at in 0..16 {
        let elsewhere: Set = others(at).flat_map(|other| sets[other].clone()).collect();
        assert_eq!(sets[at].is_subset(&elsewhere), at == 3, "r{at}");
    }
    let overlapping = |at: &usize| others(*at).any(|other| !sets[*at].is_disjoint(&sets[other]));
    assert!((0..16).filter(overlapping).count() > 5);
}

/// Without a wrong path, D and the plain set are the union of the sets of the registers named.
#[test]
fn sets_of_the_expressions() {
    let mut distinct = BTreeSet::new();
    for ran in all().iter().filter(|ran| ran.is_straight()) {
        let mut expected = set_of(&ran.job.tokens);
        if ran.job.way == Way::Kept {
            expected.extend(set_of_register(6));
            assert_eq!(ran.value(), ran.job.parts.state[6], "the condition is not 0");
        }
        assert_eq!(ran.depends(), expected, "{:?}", ran.job.way);
        assert_eq!(ran.plain(), expected, "{:?}", ran.job.way);
        distinct.insert(expected);
    }
    assert!(distinct.len() >= 60, "{}", distinct.len());
    assert!(distinct.contains(&Set::new()), "the empty set");
}

#[test]
fn every_number_of_tokens_and_values() {
    let jobs = jobs();
    for way in WAYS {
        let of_way = jobs.iter().filter(|job| job.way == way && job.branch.is_none());
        let there: BTreeSet<(usize, usize)> =
            of_way.map(|job| (job.tokens.len(), most_held(&job.tokens))).collect();
        for count in 1..=16_usize {
            for held in 1..=count.div_ceil(2) {
                assert!(there.contains(&(count, held)), "{way:?}: {count} tokens, {held} held");
            }
        }
    }
}

#[test]
fn three_states() {
    let [zeros, ones, any] = states();
    assert!(zeros.iter().all(|&word| word == 0) && ones.iter().all(|&word| word == u64::MAX));
    assert_eq!(any.iter().collect::<BTreeSet<_>>().len(), any.len(), "words that differ");
}

/// A program from each of the three states: the traces have the same kinds of observation, D and
/// the plain set are the same, and of most programs the values differ.
#[test]
fn whatever_the_registers_hold() {
    let all = all();
    let mut programs: BTreeMap<Vec<u8>, Vec<&Ran>> = BTreeMap::new();
    for ran in all.iter().filter(|ran| ran.is_straight() && WAYS.contains(&ran.job.way)) {
        programs.entry(ran.job.parts.program.concat()).or_default().push(ran);
    }
    let states = states();
    let from =
        |runs: &[&Ran], state: &Vec<u64>| runs.iter().any(|ran| ran.job.parts.state == *state);
    programs.retain(|_, runs| states.iter().all(|state| from(runs, state)));
    assert!(programs.len() >= 72 * WAYS.len(), "{}", programs.len());
    let mut with_other_values = 0;
    for runs in programs.values() {
        let kinds = |ran: &Ran| ran.run.observations().iter().map(|seen| seen.0).collect();
        let alike: BTreeSet<(Set, Set, Vec<u64>)> =
            runs.iter().map(|ran| (ran.depends(), ran.plain(), kinds(ran))).collect();
        assert_eq!(alike.len(), 1, "{:?}", runs[0].job.way);
        let values: BTreeSet<u64> = runs.iter().map(|ran| ran.value()).collect();
        with_other_values += usize::from(values.len() > 1);
    }
    assert!(with_other_values > programs.len() * 2 / 3, "{with_other_values}");
}

fn is_operand(token: &Token) -> bool {
    !matches!(token, Token::Operator(_))
}

/// Where an operand stands among those of a long expression, or that it is the only one of any.
fn place_of(operand: Token, tokens: &[Token]) -> Option<&'static str> {
    let operands: Vec<&Token> = tokens.iter().filter(|token| is_operand(token)).collect();
    let at = operands.iter().position(|&&token| token == operand)?;
    Some(match at {
        _ if operands.len() == 1 => "alone",
        _ if tokens.len() <= 3 => return None,
        0 => "first",
        _ if at + 1 == operands.len() => "last",
        _ => "middle",
    })
}

/// The bytes of these constants are every token byte, and in each constant of one kind.
#[test]
fn constants_like_tokens() {
    let all_in = |range: std::ops::RangeInclusive<u8>| {
        let within = |word: &&u64| word.to_le_bytes().iter().all(|byte| range.contains(byte));
        LIKE_TOKENS.iter().filter(within).count()
    };
    assert_eq!([all_in(0..=15), all_in(16..=16), all_in(17..=28)], [2, 1, 2]);
    let every: BTreeSet<u8> = LIKE_TOKENS.iter().flat_map(|word| word.to_le_bytes()).collect();
    assert_eq!(every, (0..=28).collect());
}

/// These constants, the first register and the last one stand in each place, and under each unary
/// operator in a long expression.
#[test]
fn places_of_operands() {
    let jobs = jobs();
    let registers = [0, 15].map(Token::Register);
    for operand in LIKE_TOKENS.map(Token::Constant).into_iter().chain(registers) {
        let places: BTreeSet<_> =
            jobs.iter().filter_map(|job| place_of(operand, &job.tokens)).collect();
        assert_eq!(places.len(), 4, "{places:?}");
        for unary in [NEG, NOT] {
            let under = |two: &[Token]| two == [operand, unary];
            let long = jobs.iter().filter(|job| job.tokens.len() > 3);
            assert!(long.into_iter().any(|job| job.tokens.windows(2).any(under)));
        }
    }
}

/// Each expression of `zeros` rests on a register that has a set, and is observed as 0 in each way
/// and from each state.
#[test]
fn values_of_zero() {
    let jobs = jobs();
    for tokens in zeros() {
        assert!(!set_of(&tokens).is_empty());
        let with = |way: Way| jobs.iter().find(|job| job.way == way && job.tokens == tokens);
        assert!(with(Way::Kept).is_some() && with(Way::Branch).is_some());
        for way in WAYS {
            let job = with(way).expect("a job");
            for state in states() {
                let parts = Parts { state, ..job.parts.clone() };
                let value = ran(SetJob { parts, ..job.clone() }).value();
                assert_eq!(value, 0, "{way:?}");
            }
        }
    }
    let long = zeros().iter().filter(|tokens| tokens.len() > 3).count();
    assert!(long > 3 && long < zeros().len(), "{long}");
}

/// An operator that stands alone, and which of its operands are registers, not constants.
fn alone(tokens: &[Token]) -> Option<(Token, Vec<bool>)> {
    let (&operator, operands) = tokens.split_last().filter(|(last, _)| !is_operand(last))?;
    let is_register = |token: &Token| matches!(token, Token::Register(_));
    let alone = operands.iter().all(is_operand);
    alone.then(|| (operator, operands.iter().map(is_register).collect()))
}

#[test]
fn every_operator_short_and_long() {
    let jobs = jobs();
    for way in [Way::Load, Way::Branch] {
        let of_way = || jobs.iter().filter(|job| job.way == way);
        for byte in 17..=28 {
            let operator = Token::Operator(byte);
            let long = |job: &SetJob| job.tokens.len() > 3 && job.tokens.contains(&operator);
            assert!(of_way().any(long), "{way:?}, {byte}, long");
            let forms = match byte {
                17 | 18 => vec![vec![true], vec![false]],
                _ => vec![vec![true, true], vec![true, false], vec![false, true]],
            };
            for form in forms {
                let wanted = Some((operator, form));
                assert!(of_way().any(|job| alone(&job.tokens) == wanted), "{way:?}, {byte}");
            }
        }
    }
}

/// Every register but r3, which is 0, is the address of a store that stops the run, and so are
/// long expressions.
#[test]
fn stopping_stores() {
    let all = all();
    let stops = |ran: &&Ran| ran.job.way == Way::Stop && ran.run.answer()[0] == OUTSIDE_FULL;
    let stopping: Vec<_> = all.iter().filter(stops).map(|ran| &ran.job.tokens[..]).collect();
    for register in 0..16 {
        let stopped = stopping.contains(&&[Token::Register(register)][..]);
        assert_eq!(stopped, register != 3, "r{register}");
    }
    assert!(stopping.iter().filter(|tokens| tokens.len() > 3).count() > 10);
}

/// The set of an expression whose first register has that of r13 and r14.
fn changed_set_of(tokens: &[Token]) -> Set {
    let first = registers(tokens).next().expect("a register");
    let set = |register| match register {
        _ if register == first => &set_of_register(13) | &set_of_register(14),
        _ => set_of_register(register),
    };
    registers(tokens).flat_map(set).collect()
}

/// D has the set before and after the change. Where the branch is on 0 the change is rolled back,
/// and the plain set is the one without it; else the plain set has the one with it. A jump may go
/// back and repeat all that.
#[test]
fn wrong_paths() {
    let (mut with_more, mut counts) = (0, BTreeSet::new());
    for ran in all().iter().filter(|ran| !ran.is_straight()) {
        let (tokens, way) = (&ran.job.tokens, ran.job.way);
        let (own, changed) = (set_of(tokens), changed_set_of(tokens));
        assert!(ran.run.answer()[3] > 0, "no rollback");
        assert!(ran.depends().is_superset(&(&own | &changed)), "{way:?}");
        if way != Way::Jump {
            match ran.job.branch {
                Some(0) => assert_eq!(ran.plain(), own, "{way:?}"),
                _ => assert!(ran.plain().is_superset(&changed), "{way:?}"),
            }
        }
        counts.insert((tokens.len(), ran.job.branch));
        with_more += usize::from(ran.depends() != ran.plain());
    }
    assert_eq!(counts.len(), 32, "every number of tokens, and branches on 0 and on 1");
    assert!(with_more > 100, "{with_more}");
}
