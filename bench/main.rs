//! The benchmark: the port and the Rust reference in one process, on the same inputs.
//!
//! bench time COUNTS > table     times every case; COUNTS is what `bench count` was counted at
//! bench count                   runs each case once on each side, for callgrind

mod cases;
mod protocol;
mod rattle;
mod rust;

use cases::{Bench, cases};
use std::hint::black_box;
use std::time::{Duration, Instant};

/// Timed runs of each side, the two in turn.
const RUNS: usize = 45;
/// About how long a timed run takes.
const SPAN: Duration = Duration::from_millis(4);

fn main() {
    let words: Vec<String> = std::env::args().collect();
    match words.get(1).map(String::as_str) {
        Some("time") => time(&counts(words.get(2))),
        Some("count") => count(),
        _ => panic!("bench time [COUNTS] | bench count"),
    }
}

/// Runs each case once on each side, and once with no record.
fn count() {
    for case in cases() {
        for records in [0, case.records_counted()] {
            let mut bench = Bench::new(case, records);
            black_box(bench.rattle(false));
            black_box(bench.rust(false));
        }
    }
}

/// The instructions of each case, Rattle's and Rust's: four numbers a case in the file, those of
/// a run with no record first.
fn counts(file: Option<&String>) -> Vec<[u64; 2]> {
    let text = file.and_then(|name| std::fs::read_to_string(name).ok()).unwrap_or_default();
    let numbers: Vec<u64> = text.split_whitespace().filter_map(|word| word.parse().ok()).collect();
    numbers.chunks_exact(4).map(|n| [n[2] - n[0].min(n[2]), n[3] - n[1].min(n[3])]).collect()
}

fn span(times: u32, mut run: impl FnMut() -> u64) -> Duration {
    let start = Instant::now();
    for _ in 0..times {
        black_box(run());
    }
    start.elapsed()
}

/// The best time of one run of each side, in nanoseconds.
fn best(bench: &mut Bench) -> [f64; 2] {
    let mut least = [f64::MAX; 2];
    let once = span(1, || bench.rust(false)).max(span(1, || bench.rattle(false)));
    let times = (SPAN.as_nanos() / once.as_nanos().max(1)).clamp(1, 10000) as u32;
    for _ in 0..RUNS {
        let rattle = span(times, || bench.rattle(false));
        let rust = span(times, || bench.rust(false));
        least[0] = least[0].min(rattle.as_nanos() as f64 / times as f64);
        least[1] = least[1].min(rust.as_nanos() as f64 / times as f64);
    }
    least
}

fn time(counts: &[[u64; 2]]) {
    println!("| case | Rattle ns | Rust ns | ratio | goal | met | Rattle instr. | Rust instr. | ratio |");
    println!("|---|---:|---:|---:|---:|---|---:|---:|---:|");
    let (mut met, mut goals) = (0, 0);
    for (i, case) in cases().into_iter().enumerate() {
        let mut bench = Bench::new(case, case.records());
        if !bench.agrees() {
            eprintln!("bench: {}: the answers differ", case.name());
            std::process::exit(1);
        }
        // Only the Rust sets its session up within the run.
        let setup = best(&mut Bench::new(case, 0));
        let total = best(&mut bench);
        let [rattle, rust] = [0, 1].map(|side| (total[side] - setup[side]) / bench.calls() as f64);
        let ratio = rattle / rust;
        let (goal, reached) = match case.goal() {
            Some(goal) => (format!("{goal}"), if ratio <= goal { "yes" } else { "no" }),
            None => ("-".into(), "-"),
        };
        goals += (goal != "-") as u32;
        met += (reached == "yes") as u32;
        let counted = counts.get(i).map_or("- | - | -".into(), |[a, b]| {
            let calls = Bench::new(case, case.records_counted()).calls() as f64;
            format!("{:.0} | {:.0} | {:.2}", *a as f64 / calls, *b as f64 / calls, *a as f64 / *b as f64)
        });
        println!("| {} | {rattle:.1} | {rust:.1} | {ratio:.3} | {goal} | {reached} | {counted} |", case.name());
    }
    println!("\nAll answers agree. {met} of {goals} goals met.");
}
