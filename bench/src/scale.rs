//! The library against the oracle on the same inputs, drawn at random and at the boundaries of every rule: shapes, points, lists
//! of building calls, streams and panel files. Every answer and every lent number is compared, those that a call
//! leaves alone included.
//!
//! A run is rounds, each with a generator of its own, so that any round can be run again by its number.

use std::time::{Duration, Instant};

use oracle::random::Random;

mod files;
mod inputs;
mod near;
mod paths;
mod shapes;

pub use inputs::Inputs;

/// Equal bits, or a NaN both.
pub fn same(a: f32, b: f32) -> bool {
    a.to_bits() == b.to_bits() || (a.is_nan() && b.is_nan())
}

fn all_same(a: &[f32], b: &[f32]) -> bool {
    a.len() == b.len() && a.iter().zip(b).all(|(a, b)| same(*a, *b))
}

/// Equal bits, NaNs too: for what a call leaves alone.
fn kept(a: &[f32], b: &[f32]) -> bool {
    a.len() == b.len() && a.iter().zip(b).all(|(a, b)| a.to_bits() == b.to_bits())
}

/// Floats as their bits.
pub fn hex(floats: &[f32]) -> String {
    let words: Vec<String> = floats
        .iter()
        .map(|x| format!("{:08x}", x.to_bits()))
        .collect();
    words.join(" ")
}

/// The number of a refusal as the oracle prints it, `refused 6 at 3`, and the place behind it.
fn refusal(text: &str) -> (u32, Option<u64>) {
    let mut words = text.split(' ').skip(1);
    let number = words.next().and_then(|w| w.parse().ok());
    let place = words.nth(1).and_then(|w| w.parse().ok());
    (number.expect("a refusal has a number"), place)
}

/// Of the oracle's answer, the number that the library returns.
fn number<T>(answer: &Result<T, String>) -> u32 {
    answer.as_ref().map_or_else(|text| refusal(text).0, |_| 0)
}

/// What is counted, in the order in which it is printed.
const KINDS: [&str; 25] = [
    "shapes made",
    "shapes refused",
    "verdicts of consistency",
    "shapes of any floats",
    "outlines",
    "needs of outlines",
    "points asked of shapes",
    "lists of calls",
    "outline calls",
    "outline calls refused",
    "conic calls",
    "conic calls refused",
    "conics at the bound of flatness",
    "other calls",
    "other calls refused",
    "needs of conics",
    "streams made by hand",
    "segments read",
    "boxes",
    "files",
    "files broken",
    "records read",
    "records written",
    "records not written",
    "touches",
];

/// How many cases of each kind were compared, and how many differ.
#[derive(Default)]
pub struct Tally {
    kinds: [(u64, u64); KINDS.len()],
    origin: String,
}

impl Tally {
    fn kind(&mut self, name: &str) -> &mut (u64, u64) {
        let at = KINDS.iter().position(|k| *k == name);
        &mut self.kinds[at.expect("a kind that is listed")]
    }

    fn count(&mut self, name: &str, cases: u64) {
        self.kind(name).0 += cases;
    }

    /// A case; if the two differ, its input is printed.
    fn case(&mut self, name: &str, equal: bool, input: impl FnOnce() -> String) {
        let kind = self.kind(name);
        kind.0 += 1;
        if !equal {
            kind.1 += 1;
            if kind.1 <= 10 {
                println!("DIFFERS {} {name}: {}", self.origin, input());
            }
        }
    }

    fn differences(&self) -> u64 {
        self.kinds.iter().map(|k| k.1).sum()
    }

    fn print(&self) {
        for (name, (cases, differ)) in KINDS.iter().zip(self.kinds) {
            println!("| {name} | {cases} | {differ} |");
        }
    }
}

/// What one round compares.
fn round(inputs: &mut Inputs, tally: &mut Tally) {
    for _ in 0..4000 {
        shapes::from_sizes(inputs, tally);
    }
    for _ in 0..1000 {
        shapes::of_any_floats(inputs, tally);
    }
    for _ in 0..4000 {
        paths::list(inputs, tally);
    }
    for _ in 0..200 {
        paths::flat_bound(inputs, tally);
    }
    for _ in 0..4000 {
        paths::stream(inputs, tally);
    }
    for _ in 0..400 {
        files::file(inputs, tally);
    }
    for _ in 0..2000 {
        files::written(inputs, tally);
    }
}

struct Options {
    minutes: f64,
    seed: u64,
    only: Option<u64>,
}

fn options(words: &[&str]) -> Option<Options> {
    let mut options = Options {
        minutes: 1.0,
        seed: 1,
        only: None,
    };
    for pair in words.chunks(2) {
        match *pair {
            ["--minutes", n] => options.minutes = n.parse().ok()?,
            ["--seed", n] => options.seed = n.parse().ok()?,
            ["--round", n] => options.only = Some(n.parse().ok()?),
            _ => return None,
        }
    }
    Some(options)
}

pub fn run(words: &[&str]) {
    let Some(options) = options(words) else {
        eprintln!("usage: bench compare drawing [--minutes N] [--seed N] [--round N]");
        std::process::exit(2);
    };
    let limit = Duration::from_secs_f64(options.minutes * 60.0);
    let begin = Instant::now();
    let mut tally = Tally::default();
    let mut rounds = 0;
    let mut inputs = Inputs::new();
    while rounds == 0 || (options.only.is_none() && begin.elapsed() < limit) {
        let number = options.only.unwrap_or(rounds);
        tally.origin = format!("seed {} round {number}", options.seed);
        inputs.random = Random(options.seed ^ (number + 1).wrapping_mul(0x2545_f491_4f6c_dd1d));
        round(&mut inputs, &mut tally);
        rounds += 1;
    }
    println!("| compared | cases | differ |\n|---|---|---|");
    tally.print();
    println!(
        "seed {}, {rounds} rounds, {:.1} minutes: {} differences",
        options.seed,
        begin.elapsed().as_secs_f64() / 60.0,
        tally.differences()
    );
    if tally.differences() > 0 {
        std::process::exit(1);
    }
}
