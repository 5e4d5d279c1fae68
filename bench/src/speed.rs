//! ns per call of the library's float functions, of the oracle's written-out ones and of the
//! platform's, measured in turns in one run, the least of many rounds each. bench/README.md says what
//! each row is and what the two ratios are.

use std::hint::black_box;
use std::time::Instant;

use oracle::random::Random;

use crate::library;
use crate::others::{machine, platform, written};

const INPUTS: usize = 4096;
const ROUNDS: usize = 200;

/// One round over all inputs: ns per call. `tie` keeps nothing of its second operand, which the
/// compiler cannot know.
fn round<T: Copy>(inputs: &[T], call: impl Fn(T) -> u64, tie: impl Fn(T, u64) -> T) -> f64 {
    let mut last = 0u64;
    let start = Instant::now();
    for x in inputs {
        last = call(tie(*x, last));
    }
    let time = start.elapsed();
    black_box(last);
    time.as_nanos() as f64 / inputs.len() as f64
}

fn overlapping<T: Copy>(inputs: &[T], call: impl Fn(T) -> u64) -> f64 {
    let mut sum = 0u64;
    let start = Instant::now();
    for x in inputs {
        sum = sum.wrapping_add(call(*x));
    }
    let time = start.elapsed();
    black_box(sum);
    time.as_nanos() as f64 / inputs.len() as f64
}

/// Of the rounds' ratios of the first function to function `k` the median.
fn ratio(rounds: &[[f64; 3]], k: usize) -> f64 {
    let mut ratios: Vec<f64> = rounds.iter().map(|r| r[0] / r[k]).collect();
    ratios.sort_by(f64::total_cmp);
    ratios[ratios.len() / 2]
}

/// A row of the table: the library, the Rust on the written-out functions and on the platform's.
pub fn row(name: &str, how: &str, rounds: &[[f64; 3]], goal: &str) {
    let [library, written, std] =
        [0, 1, 2].map(|k| rounds.iter().map(|r| r[k]).fold(f64::INFINITY, f64::min));
    let digits = if library < 100.0 { 1 } else { 0 };
    print!("| {name} | {how} | {library:.digits$} | {written:.digits$} | {std:.digits$} ");
    println!(
        "| {:.2} | {:.2} | {:.2} | {:.2} | {goal} |",
        library / written,
        library / std,
        ratio(rounds, 1),
        ratio(rounds, 2)
    );
}

pub fn head() {
    println!("ns per call; ratios are the library's time over the other's\n");
    println!("| function | | library | Rust, written-out | Rust, std | to written-out | to std | median | median | goal, to written-out |");
    println!("|---|---|---|---|---|---|---|---|---|---|");
}

/// The rounds of each function, taken in turns.
macro_rules! compare {
    ($names:expr, $name:literal, $goal:literal, $inputs:expr, $tie:expr, $($call:expr),+ $(,)?) => {{
        if $names.is_empty() || $names.contains(&$name) {
            let inputs = $inputs;
            let mut calls = [[0.0; 3]; ROUNDS];
            let mut chain = [[0.0; 3]; ROUNDS];
            for (calls, chain) in calls.iter_mut().zip(&mut chain) {
                *calls = [$(overlapping(&inputs, $call)),+];
                *chain = [$(round(&inputs, $call, $tie)),+];
            }
            row($name, "calls", &calls, $goal);
            row($name, "chain", &chain, $goal);
        }
    }};
}

fn inputs<T>(make: impl Fn(&mut Random) -> T) -> Vec<T> {
    let mut random = Random(1);
    (0..INPUTS).map(|_| make(&mut random)).collect()
}

fn bits(x: f32) -> u64 {
    x.to_bits() as u64
}

fn both(p: (f32, f32)) -> u64 {
    bits(p.0) ^ bits(p.1)
}

pub fn run(names: &[&str]) {
    let none = black_box(0u64);
    let tie = |x: f32, last: u64| f32::from_bits(x.to_bits() ^ (last & none) as u32);
    let tie_wide = |x: f64, last: u64| f64::from_bits(x.to_bits() ^ (last & none));
    let tie_pair = |(a, b): (f32, f32), last: u64| (tie(a, last), b);
    compare!(
        names,
        "narrow",
        "2",
        inputs(|r| r.within(-2000.0, 2000.0)),
        tie_wide,
        |x| bits(library::narrow(x)),
        |x| bits(machine::narrow(x)),
        |x| bits(machine::narrow(x))
    );
    compare!(
        names,
        "sqrt",
        "2",
        inputs(|r| r.within(0.0, 4e6) as f32),
        tie,
        |x| bits(library::sqrt(x)),
        |x| bits(machine::sqrt(x)),
        |x| bits(machine::sqrt(x))
    );
    compare!(
        names,
        "pow",
        "1.0",
        inputs(|r| (r.within(0.0, 1.0) as f32, r.within(2.0, 14.0) as f32)),
        tie_pair,
        |(b, y)| bits(library::pow(b, y)),
        |(b, y)| bits(written::pow(b, y)),
        |(b, y)| bits(platform::pow(b, y))
    );
    compare!(
        names,
        "sin_cos",
        "1.0",
        inputs(|r| r.within(-8.0, 8.0) as f32),
        tie,
        |x| both(library::sin_cos(x)),
        |x| both(written::sin_cos(x)),
        |x| both(platform::sin_cos(x))
    );
    compare!(
        names,
        "tan",
        "1.0",
        inputs(|r| r.within(-1.0, 1.0) as f32),
        tie,
        |x| bits(library::tan(x)),
        |x| bits(written::tan(x)),
        |x| bits(platform::tan(x))
    );
    compare!(
        names,
        "atan2",
        "1.0",
        inputs(|r| (r.within(-2e3, 2e3) as f32, r.within(-2e3, 2e3) as f32)),
        tie_pair,
        |(y, x)| bits(library::atan2(y, x)),
        |(y, x)| bits(written::atan2(y, x)),
        |(y, x)| bits(platform::atan2(y, x))
    );
}
