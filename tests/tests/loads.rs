//! Test loads by the reference: the words from a seed, and what the batches of `c-example` must count.

use check_box_reference::{run, test_load, LoadAnswer, PairWord};
use checker_tests::cases::MOST_END_WORDS;
use checker_tests::cost_tables::ONES;
use checker_tests::demands::{has, public_of};
use checker_tests::examples::{barrier, nested, printed, r0_zero, seldom};
use checker_tests::job_file::Parts;
use checker_tests::load_claims::next_word;

/// The first words from two seeds, computed outside this repository.
#[test]
fn the_sequence_is_that_of_the_request() {
    let words = |seed| std::iter::successors(Some(seed), |&word| Some(next_word(word))).skip(1);
    let from_1 = [1_082_269_761, 1_152_992_998_833_853_505, 11_177_516_664_432_764_457];
    assert!(words(1).take(3).eq(from_1));
    let from_last = [1_065_361_344, 1_152_851_127_339_773_951, 508_277_857_751_731_680];
    assert!(words(u64::MAX).take(3).eq(from_last));
}

fn load(job: &[u8], seed: u64, trace: usize) -> Result<(LoadAnswer, Vec<u8>), u32> {
    let (mut one, mut two) = (vec![0; trace], vec![0; trace]);
    let (mut work, mut state) = (vec![0; 4_096], vec![0; 2_048]);
    let answer = test_load(job, seed, &ONES, &mut one, &mut two, &mut work, &mut state)?;
    Ok((answer, state))
}

/// The highest location that is neither public nor in the plain set.
fn last_new_location(parts: &Parts) -> Option<usize> {
    let job = parts.bytes();
    let answer = run(&job, &ONES, &mut [0; 100], &mut [0; MOST_END_WORDS], &mut [0; 4_096])
        .expect("accepted");
    let kept = |location| has(public_of(&job), location) || has(answer.plain, location);
    (0..parts.state.len()).rev().find(|&location| !kept(location))
}

/// How many loads of a batch show a leak, are equal and are undecided, and the first seed that shows one.
fn batch(parts: &Parts, loads: u64, mut seed: u64) -> ([u64; 3], Option<u64>) {
    let last = 8 * last_new_location(parts).expect("a location with a new word");
    let (mut counts, mut first) = ([0; 3], None);
    for _ in 0..loads {
        let (answer, state) = load(&parts.bytes(), seed, 100).expect("accepted");
        let words = [PairWord::LeakShown, PairWord::Equal, PairWord::Undecided];
        let word = words.iter().position(|&word| word == answer.word).expect("one of the three");
        counts[word] += 1;
        if word == 0 {
            first = first.or(Some(seed));
        }
        seed = u64::from_le_bytes(state[last..last + 8].try_into().expect("eight bytes"));
    }
    (counts, first)
}

#[test]
fn batches_of_the_examples_count_this() {
    assert_eq!(batch(&printed(), 1_000, 1), ([1_000, 0, 0], Some(1)));
    assert_eq!(batch(&printed(), 3, u64::MAX), ([3, 0, 0], Some(u64::MAX)));
    for parts in [r0_zero(), barrier(), nested()] {
        assert_eq!(batch(&parts, 1_000, 1), ([0, 1_000, 0], None));
    }
    assert_eq!(batch(&seldom(), 1_000, 1), ([56, 944, 0], Some(7_955_851_248_285_422_801)));
    assert_eq!(batch(&seldom(), 1_000, 7), ([79, 921, 0], Some(5_240_918_611_960_207_512)));
    assert_eq!(batch(&Parts { budget: 6, ..seldom() }, 1_000, 1), ([0, 944, 56], None));
    let m3_public = Parts { public: vec![0, 1, 19], ..seldom() };
    assert_eq!(batch(&m3_public, 1_000, 1), ([69, 931, 0], Some(644_840_850_092_360_799)));
    assert_eq!(last_new_location(&Parts { public: (0..20).collect(), ..printed() }), None);
    let all_but_m0 = (0..20).filter(|&location| location != 16).collect();
    assert_eq!(last_new_location(&Parts { public: all_but_m0, ..r0_zero() }), None);
}
