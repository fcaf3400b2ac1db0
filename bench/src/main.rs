//! Measures the library, the optimised Rust implementation and the reference on the same jobs in one
//! process, and prints the time per step of each and the ratios.
//!
//! checker-bench [ROUNDS [PART]]: the best of so many rounds counts, 100 unless given; of the jobs, those
//! whose name has the part.
//! checker-bench --growth [ROUNDS]: how the library's time grows with a job's numbers.
//! checker-bench --texts [ROUNDS]: reading and printing of texts by the library and by the reference.
//! checker-bench --calls 0|1 WORKLOAD CALLS: calls alone, for a program that counts instructions;
//! checker-bench --workloads: how many workloads there are.

use std::hint::black_box;
use std::process::ExitCode;
use std::time::Instant;

use check_box_reference as reference;
use checker_bench::fast::{Checker, ANSWER_WORDS};
use checker_bench::growth::{samples, Sample};
use checker_bench::jobs::{small_job, workloads, Workload};
use checker_bench::texts::measure_texts;
use checker_bench::timing::{best_of, processor};
use checker_bench::verify::agrees_with_reference;
use checker_tests::calls::run_words;
use checker_tests::cases::{MOST_END_WORDS, WORKING_WORDS};
use checker_tests::cost_tables::{KINDS, ONES};
use checker_tests::library;

const VERIFIED_JOBS: u64 = 20_000;
const DEFAULT_ROUNDS: usize = 100;

/// The reference is slow, and nothing is compared with it closely: it runs in every tenth round.
const REFERENCE_EVERY: usize = 10;

/// The areas lent to every call of every implementation.
struct Areas {
    trace: Vec<u64>,
    end: Vec<u64>,
    work: Vec<u64>,
    answer: [u64; ANSWER_WORDS],
}

impl Areas {
    fn new() -> Areas {
        Areas::with_trace(200_000)
    }

    fn with_trace(words: usize) -> Areas {
        Areas {
            trace: vec![1; words],
            end: vec![1; MOST_END_WORDS],
            work: vec![1; WORKING_WORDS],
            answer: [0; ANSWER_WORDS],
        }
    }
}

/// Runs one job with a table and leaves the answer in the areas.
type Runner<'a> = Box<dyn FnMut(&[u8], &[u8; KINDS], &mut Areas) + 'a>;

fn main() -> ExitCode {
    let words: Vec<String> = std::env::args().skip(1).collect();
    let rounds =
        |at: usize| words.get(at).and_then(|word| word.parse().ok()).unwrap_or(DEFAULT_ROUNDS);
    match words.first().map(String::as_str) {
        Some("--workloads") => {
            println!("{}", workloads().len());
            return ExitCode::SUCCESS;
        }
        Some("--calls") => return make_calls(&words[1..]),
        Some("--growth") => return measure_growth(rounds(1)),
        Some("--texts") => return measure_texts(rounds(1)),
        _ => {}
    }
    match agrees_with_reference(VERIFIED_JOBS, 1) {
        Ok(count) => println!("optimised Rust agrees with the reference on {count} jobs"),
        Err(error) => {
            eprintln!("{error}");
            return ExitCode::FAILURE;
        }
    }
    measure_all(rounds(0), words.get(1).map_or("", String::as_str))
}

/// Makes so many calls of one implementation (0 the library, 1 the optimised one) on the jobs of one
/// workload, by its number, and prints its name and its steps: for a program that counts instructions.
fn make_calls(words: &[String]) -> ExitCode {
    let numbers: Vec<usize> = words.iter().filter_map(|word| word.parse().ok()).collect();
    let (&[implementation, number, calls], Some(workload)) =
        (&numbers[..], numbers.get(1).and_then(|&number| workloads().into_iter().nth(number)))
    else {
        eprintln!("usage: checker-bench --calls 0|1 WORKLOAD CALLS");
        return ExitCode::FAILURE;
    };
    let mut areas = Areas::new();
    let mut runner = runners().into_iter().nth(implementation).expect("an implementation");
    let mut steps = 0;
    for _ in 0..calls {
        steps = 0;
        for job in &workload.jobs {
            runner(black_box(job), black_box(&workload.costs), &mut areas);
            steps += areas.answer[2];
        }
    }
    println!("{number}\t{}\t{steps}", workload.name);
    ExitCode::SUCCESS
}

fn measure_all(rounds: usize, part: &str) -> ExitCode {
    println!("processor: {}", processor());
    println!("best of {rounds} rounds; each runs the library, then the optimised Rust, every tenth also the reference");
    println!(
        "areas: the same for all calls, written once before the first round (warm), not cleared"
    );
    println!("between calls; each call clears its 4,096 working words, as the rules demand");
    println!("time per step in nanoseconds, reading of the job and clearing of the working area included");
    println!();
    println!("| job | library | optimised Rust | reference | library / optimised | reference / optimised |");
    println!("|---|---|---|---|---|---|");
    let mut areas = Areas::new();
    for workload in workloads().into_iter().filter(|workload| workload.name.contains(part)) {
        let Some((steps, best)) = measure(&workload, rounds, &mut areas) else {
            eprintln!("{}: the answers differ", workload.name);
            return ExitCode::FAILURE;
        };
        let [library, fast, slow] = best.map(|seconds| seconds * 1e9 / steps as f64);
        println!(
            "| {} | {library:.2} | {fast:.2} | {slow:.2} | {:.2} | {:.2} |",
            workload.name,
            library / fast,
            slow / fast
        );
    }
    print_fixed_cost(rounds, &mut areas);
    ExitCode::SUCCESS
}

/// What a call costs whatever its job is, and how much of that is the clearing that the rules demand.
fn print_fixed_cost(rounds: usize, areas: &mut Areas) {
    let job = small_job();
    let [mut library, mut fast, _] = runners();
    let times = [&mut library, &mut fast]
        .map(|runner| best_of(rounds, 100, || runner(black_box(&job), black_box(&ONES), areas)));
    let clearing = best_of(rounds, 100, || black_box(&mut areas.work).fill(0));
    println!();
    println!(
        "fixed cost of a call (n 1, m 16, b 1): library {:.0} ns, optimised Rust {:.0} ns (ratio {:.2})",
        times[0],
        times[1],
        times[0] / times[1]
    );
    println!(
        "clearing of 4,096 words alone: {clearing:.0} ns, {:.0} % of the library's",
        100.0 * clearing / times[0]
    );
}

/// How the library's time grows with each of a job's numbers: what each unit more costs beside the size
/// before.
fn measure_growth(rounds: usize) -> ExitCode {
    println!("processor: {}; best of {rounds} rounds", processor());
    println!();
    println!("| | | nanoseconds a call | for each unit more |");
    println!("|---|---|---|---|");
    let mut areas = Areas::with_trace(4_000_000);
    let [mut library, _, _] = runners();
    let mut before: Option<(&str, usize, f64)> = None;
    for Sample { series, size, unit, units, steps, job } in samples() {
        library(&job, &ONES, &mut areas);
        if areas.answer[2] != steps {
            eprintln!("{series} {size}: {} steps instead of {steps}", areas.answer[2]);
            return ExitCode::FAILURE;
        }
        let calls = if steps < 1_000 { 100 } else { 1 };
        let time =
            best_of(rounds, calls, || library(black_box(&job), black_box(&ONES), &mut areas));
        let more = match before {
            Some((name, fewer, less)) if name == series && fewer < units => {
                format!("{:.2} a {unit}", (time - less) / (units - fewer) as f64)
            }
            _ => format!("{:.2} a {unit} in all", time / units as f64),
        };
        println!("| {series} | {size} | {time:.0} | {more} |");
        before = Some((series, units, time));
    }
    ExitCode::SUCCESS
}

fn runners<'a>() -> [Runner<'a>; 3] {
    let mut checker = Checker::default();
    [
        Box::new(|job, costs, areas| {
            let Areas { trace, end, work, answer } = areas;
            library::run(job, costs, trace, end, work, answer);
        }),
        Box::new(move |job, costs, areas| {
            let Areas { trace, end, work, answer } = areas;
            checker.run(job, costs, trace, end, work, answer);
        }),
        Box::new(|job, costs, areas| {
            let Areas { trace, end, work, answer } = areas;
            if let Ok(ran) = reference::run(job, costs, trace, end, work) {
                answer.copy_from_slice(&run_words(ran));
            }
        }),
    ]
}

/// The steps of a round and the best time of each implementation; none if their answers differ.
fn measure(workload: &Workload, rounds: usize, areas: &mut Areas) -> Option<(u64, [f64; 3])> {
    let mut runners = runners();
    let steps = same_steps(workload, &mut runners, areas)?;
    let mut best = [f64::INFINITY; 3];
    for round in 0..rounds {
        let measured = if round % REFERENCE_EVERY == 0 { 3 } else { 2 };
        for (runner, best) in runners.iter_mut().zip(&mut best).take(measured) {
            let start = Instant::now();
            run_round(workload, runner, areas);
            *best = best.min(start.elapsed().as_secs_f64());
        }
    }
    Some((steps, best))
}

fn run_round(workload: &Workload, runner: &mut Runner, areas: &mut Areas) {
    for _ in 0..workload.repeats {
        for job in &workload.jobs {
            runner(black_box(job), black_box(&workload.costs), areas);
            black_box(&areas.answer);
        }
    }
}

/// Runs each job once by each implementation; this also warms the areas.
fn same_steps(workload: &Workload, runners: &mut [Runner], areas: &mut Areas) -> Option<u64> {
    let mut steps = 0;
    for job in &workload.jobs {
        let mut results = Vec::new();
        for runner in runners.iter_mut() {
            areas.answer = [u64::MAX; ANSWER_WORDS];
            runner(job, &workload.costs, areas);
            let written = 2 * areas.answer[1] as usize;
            results.push((areas.answer, areas.trace.get(..written)?.to_vec(), areas.end.clone()));
        }
        if results.iter().any(|result| result != &results[0]) {
            return None;
        }
        steps += areas.answer[2];
    }
    Some(steps * workload.repeats as u64)
}
