//! The generator keeps its promises: jobs and tables that are meant to be valid are accepted, damage leads to
//! the refusal it aims at, and a seed gives the same case every time.

use check_box_reference::run;
use checker_tests::cases::{random_case, MOST_END_WORDS};
use checker_tests::cost_tables::{damage_table, random_table, style_of, TableStyle, ONES};
use checker_tests::damage::refused_with;
use checker_tests::examples::printed;
use checker_tests::generate::{random_job, Style, STYLES};
use checker_tests::random::{case_seed, Random};

/// 0, or the number with which the reference refuses a job and a table in an empty trace area.
fn refusal_with(job: &[u8], costs: &[u8]) -> u32 {
    run(job, costs, &mut [], &mut vec![0; MOST_END_WORDS], &mut vec![0; 4_096]).err().unwrap_or(0)
}

fn refusal(job: &[u8]) -> u32 {
    refusal_with(job, &ONES)
}

#[test]
fn jobs_of_every_style_are_valid() {
    for style in STYLES {
        for number in 0..400 {
            let mut random = Random::new(case_seed(7, number));
            let job = random_job(style, &mut random).bytes();
            assert_eq!(refusal(&job), 0, "style {style:?}, number {number}");
        }
    }
}

/// Large jobs are left out: one that fills the file already has no room for some kinds of damage.
#[test]
fn damage_leads_to_its_refusal() {
    for style in STYLES.into_iter().filter(|&style| style != Style::Large) {
        for number in 1..=8 {
            for seed in 0..300 {
                let mut random = Random::new(case_seed(8, seed));
                let parts = random_job(style, &mut random);
                let job = refused_with(number, parts, &mut random);
                assert_eq!(refusal(&job), number, "style {style:?}, seed {seed}");
            }
        }
    }
}

#[test]
fn tables_are_valid_until_damaged() {
    let (job, mut ones) = (printed().bytes(), 0);
    for number in 0..3_000 {
        let mut random = Random::new(case_seed(9, number));
        let mut costs = random_table(&mut random);
        assert_eq!(refusal_with(&job, &costs), 0, "{costs:?}");
        ones += usize::from(style_of(&costs) == TableStyle::Ones);
        damage_table(&mut costs, &mut random);
        assert_eq!(refusal_with(&job, &costs), 14, "{costs:?}");
    }
    assert!((900..1_200).contains(&ones), "{ones} tables of eight ones");
}

#[test]
fn a_seed_gives_the_same_case() {
    for seed in 0..200 {
        let (one, two) = (random_case(seed), random_case(seed));
        assert_eq!((one.job, one.second, one.salt), (two.job, two.second, two.salt));
        assert_eq!((one.load_seed, one.costs), (two.load_seed, two.costs));
        assert_eq!(format!("{:?}", one.lengths), format!("{:?}", two.lengths));
    }
}
