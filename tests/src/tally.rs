//! Counts of what was run, so that it can be judged how much the runs cover.

use crate::calls::{Operation, Outcome};
use crate::cases::{Case, TREATMENTS, WORKING_WORDS};
use crate::cost_tables::{fits, style_of, TABLE_STYLES};
use crate::demands::{has, state_of};
use crate::first_claims::depends_of;
use crate::generate::STYLES;
use crate::listed::{STOPS, VERDICTS};
use crate::outside::{Remembered, EVENTS};
use crate::outside_claims::{cells_of, OUTSIDE_FULL};

const WORDS: [&str; 5] = ["not comparable", "undecided", "plain differs", "leak shown", "equal"];
/// What a test load can give: the three words, the stop of an own run that did not finish, whether a state was
/// made, and the stop of a second run that did not finish.
const LOADS: [&str; 12] = [
    "undecided",
    "leak shown",
    "equal",
    "own run spent",
    "own run trace full",
    "own run outside full",
    "no state made",
    "a state made",
    "one like the job's own",
    "second run spent",
    "second run trace full",
    "second run outside full",
];
const OBSERVED: [&str; 7] =
    ["start", "rollback", "pc", "load inside", "store inside", "load outside", "store outside"];

/// How a run can come to its stop with stores outside remembered.
const TABLES: [&str; 4] =
    ["some", "64 and not full", "full with nothing open", "full on a wrong path"];

/// What can bring a location into D, in the order of the causes, with the store that stopped a run apart; and that the
/// location is not in the plain set.
const FIRSTS: [&str; 6] =
    ["branch", "jump", "load", "store", "store that stopped the run", "not in the plain set"];

/// The refusals of the four calls; 11 is one of texts alone.
const REFUSALS: [usize; 13] = [1, 2, 3, 4, 5, 6, 7, 8, 9, 10, 12, 13, 14];

/// A table that is refused, or would be, together with another cause: which of the two numbers is given.
const TOGETHER: [&str; 5] =
    ["1 to 8 before 14", "9 before 14", "14 before 10", "14 before 13", "14 before 12"];

const LOAD: u64 = 3;
const STORE: u64 = 4;

#[derive(Default)]
pub struct Tally {
    pub cases: u64,
    pub calls: u64,
    pub demand_2: u64,
    pub demand_3: u64,
    pub states_changed_outside_d: u64,
    pub clean_states_changed: u64,
    pub outside_claims: u64,
    pub load_claims: u64,
    pub first_claims: u64,
    pub cost_claims: u64,
    styles: [u64; STYLES.len()],
    treatments: [u64; TREATMENTS.len()],
    table_styles: [u64; TABLE_STYLES.len()],
    refusals: [u64; 15],
    together: [u64; TOGETHER.len()],
    run_stops: [u64; 4],
    plain_stops: [u64; 4],
    verdicts: [u64; 4],
    words: [u64; 5],
    loads: [u64; LOADS.len()],
    observed: [u64; 7],
    events: [u64; EVENTS.len()],
    tables: [u64; TABLES.len()],
    firsts: [u64; FIRSTS.len()],
    latest_first: u64,
    stopped_on_wrong_path: u64,
    deepest: usize,
    most_steps: u64,
    most_observations: u64,
}

impl Tally {
    pub fn count_case(&mut self, case: &Case) {
        self.cases += 1;
        if let Some(style) = case.style {
            self.styles[style as usize] += 1;
        }
        self.treatments[case.treatment as usize] += 1;
        self.table_styles[style_of(&case.costs) as usize] += 1;
    }

    /// Counts a call whose outcome is as it must be.
    pub fn count_outcome(&mut self, case: &Case, outcome: &Outcome) {
        self.calls += 1;
        self.refusals[outcome.number as usize] += 1;
        if outcome.number != 0 {
            self.count_together(case, outcome);
            return;
        }
        let answer = outcome.answer();
        match outcome.operation {
            Operation::Run => {
                self.run_stops[answer[0] as usize] += 1;
                self.verdicts[answer[12] as usize] += 1;
                self.most_steps = self.most_steps.max(answer[2]);
                self.most_observations = self.most_observations.max(answer[1]);
                self.count_trace(&outcome.observations(), answer[0], cells_of(case));
                self.count_firsts(outcome);
            }
            Operation::Plain => self.plain_stops[answer[0] as usize] += 1,
            Operation::Pair => self.words[answer[0] as usize] += 1,
            Operation::Load => self.count_load(case, outcome),
        }
    }

    /// The traits stand in the order of `TOGETHER`. A plain run takes no table.
    fn count_together(&mut self, case: &Case, outcome: &Outcome) {
        if outcome.operation == Operation::Plain || fits(&case.costs) {
            return;
        }
        let (number, load) = (outcome.number, outcome.operation == Operation::Load);
        let areas_fit = case.lengths.work >= WORKING_WORDS;
        let traits = [
            number <= 8,
            number == 9,
            number == 14 && !areas_fit,
            number == 14 && load && case.load_seed == 0,
            number == 14 && load && case.lengths.state < state_of(&case.job).len(),
        ];
        for (count, holds) in self.together.iter_mut().zip(traits) {
            *count += u64::from(holds);
        }
    }

    /// The traits stand in the order of `LOADS`; a load can have several.
    fn count_load(&mut self, case: &Case, outcome: &Outcome) {
        let answer = outcome.answer();
        let (word, own, second, made) = (answer[0], answer[1], answer[5], answer[9] == 1);
        let alike = made && outcome.state.content().starts_with(state_of(&case.job));
        let traits = [
            word == 1,
            word == 3,
            word == 4,
            own == 1,
            own == 2,
            own == 3,
            !made,
            made,
            alike,
            made && second == 1,
            made && second == 2,
            made && second == 3,
        ];
        for (count, holds) in self.loads.iter_mut().zip(traits) {
            *count += u64::from(holds);
        }
    }

    fn count_firsts(&mut self, run: &Outcome) {
        let (depends, observations) = (depends_of(run), run.answer()[1]);
        let plain = run.answer()[8..12].try_into().expect("four words");
        for (location, &[index, cause, _]) in run.reports().iter().enumerate() {
            if has(depends, location) {
                let at = if index == observations { FIRSTS.len() - 2 } else { cause as usize };
                self.firsts[at] += 1;
                self.firsts[FIRSTS.len() - 1] += u64::from(!has(plain, location));
                self.latest_first = self.latest_first.max(index);
            }
        }
    }

    fn count_trace(&mut self, trace: &[(u64, u64)], stop: u64, cells: u64) {
        let mut remembered = Remembered::nothing(cells);
        for &(kind, value) in trace {
            let outside = (kind == LOAD || kind == STORE) && value >= cells;
            self.observed[kind as usize + if outside { 2 } else { 0 }] += 1;
            if let Some(event) = remembered.observe(kind, value) {
                self.events[event as usize] += 1;
            }
            self.deepest = self.deepest.max(remembered.open_branches());
        }
        let (entries, open) = (remembered.addresses().len(), remembered.open_branches() > 0);
        self.stopped_on_wrong_path += u64::from(open);
        let full = stop == OUTSIDE_FULL;
        let traits = [entries > 0, entries == 64 && !full, full && !open, full && open];
        for (count, holds) in self.tables.iter_mut().zip(traits) {
            *count += u64::from(holds);
        }
    }

    /// What never occurred although it should in a long run.
    pub fn missing(&self) -> Vec<String> {
        let refusals = REFUSALS.map(|number| (format!("refusal {number}"), self.refusals[number]));
        let tables = TABLE_STYLES.map(|style| format!("table {style:?}"));
        let named = |kind: &'static str, names: &'static [&'static str], counts: &[u64]| {
            let names = names.iter().map(move |name| format!("{kind} {name}"));
            names.zip(counts.to_vec()).collect::<Vec<_>>()
        };
        refusals
            .into_iter()
            .chain(named("stop", &STOPS, &self.run_stops))
            .chain(named("stop of a plain run", &STOPS, &self.plain_stops))
            .chain(named("verdict", &VERDICTS, &self.verdicts))
            .chain(named("pair word", &WORDS, &self.words))
            .chain(named("test load", &LOADS, &self.loads))
            .chain(named("observation", &OBSERVED, &self.observed))
            .chain(named("outside memory", &EVENTS, &self.events))
            .chain(named("stores remembered at the stop", &TABLES, &self.tables))
            .chain(named("first observation", &FIRSTS, &self.firsts))
            .chain(named("refusals", &TOGETHER, &self.together))
            .chain(tables.into_iter().zip(self.table_styles))
            .filter(|(_, count)| *count == 0)
            .map(|(name, _)| name)
            .collect()
    }

    pub fn print(&self) {
        println!("cases {}, calls compared with the reference {}", self.cases, self.calls);
        println!(
            "jobs by style: {}",
            counts(&STYLES.map(|style| format!("{style:?}")), &self.styles)
        );
        let treatments = TREATMENTS.map(|treatment| format!("{treatment:?}"));
        println!("cases by treatment: {}", counts(&treatments, &self.treatments));
        let tables = TABLE_STYLES.map(|style| format!("{style:?}"));
        println!("tables of window costs: {}", counts(&tables, &self.table_styles));
        let refused = REFUSALS.map(|number| self.refusals[number]);
        println!(
            "calls accepted {}; refused: {}",
            self.refusals[0],
            counts(&REFUSALS.map(|number| format!("{number}")), &refused)
        );
        println!("several causes, one of them the table: {}", counts(&TOGETHER, &self.together));
        println!("stops: {}", counts(&STOPS, &self.run_stops));
        println!("stops of plain runs: {}", counts(&STOPS, &self.plain_stops));
        println!("verdicts: {}", counts(&VERDICTS, &self.verdicts));
        println!("pair words: {}", counts(&WORDS, &self.words));
        println!("test loads: {}", counts(&LOADS, &self.loads));
        println!("observations: {}", counts(&OBSERVED, &self.observed));
        println!("remembered stores outside: {}", counts(&EVENTS, &self.events));
        println!("remembered at the stop: {}", counts(&TABLES, &self.tables));
        println!(
            "first observations: {}; the latest {}",
            counts(&FIRSTS, &self.firsts),
            self.latest_first
        );
        println!(
            "runs stopped on a wrong path {}, most branches open {}, most steps {}, most observations {}",
            self.stopped_on_wrong_path, self.deepest, self.most_steps, self.most_observations
        );
        println!(
            "demand 2 tried {}; demand 3 tried {}, with a changed state {}; clean, all but public changed {}",
            self.demand_2, self.demand_3, self.states_changed_outside_d, self.clean_states_changed
        );
        println!(
            "claims of stores outside tried {}, of test loads {}, of first observations {}, of tables {}",
            self.outside_claims, self.load_claims, self.first_claims, self.cost_claims
        );
    }
}

pub fn counts<T: AsRef<str>>(names: &[T], numbers: &[u64]) -> String {
    let parts =
        names.iter().zip(numbers).map(|(name, number)| format!("{} {number}", name.as_ref()));
    parts.collect::<Vec<_>>().join(", ")
}
