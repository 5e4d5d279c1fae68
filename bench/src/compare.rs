//! The library against the machine's own instructions and against the oracle, in bulk.

use crate::library;
use crate::others::machine;
use crate::scale::same;
use oracle::elementary;
use oracle::random::Random;

/// How many cases were compared and how many differ; the first few of those are printed.
struct Count {
    name: &'static str,
    cases: u64,
    differ: u64,
}

impl Count {
    fn new(name: &'static str) -> Count {
        Count {
            name,
            cases: 0,
            differ: 0,
        }
    }

    fn case(&mut self, ours: f32, theirs: f32, operands: impl Fn() -> String) {
        self.cases += 1;
        if !same(ours, theirs) {
            self.differ(ours, theirs, operands);
        }
    }

    fn differ(&mut self, ours: f32, theirs: f32, operands: impl Fn() -> String) {
        self.differ += 1;
        if self.differ <= 10 {
            println!("{} {}: {ours:e}, not {theirs:e}", self.name, operands());
        }
    }

    fn print(&self, what: &str) {
        println!(
            "{}: {} {what}, {} differ",
            self.name, self.cases, self.differ
        );
    }
}

/// Every f32.
fn sqrt() {
    let mut count = Count::new("sqrt");
    for n in 0..=u32::MAX {
        let x = f32::from_bits(n);
        count.case(library::sqrt(x), machine::sqrt(x), || format!("{n:08x}"));
    }
    count.print("patterns (all there are)");
}

/// About every sixteenth f32 of either sign: its value, the midpoint to the next, and one f64 to
/// each side of that; then any bits; then exponents about the range of f32.
fn narrow() {
    let mut count = Count::new("narrow");
    let mut random = Random(3);
    let mut case = |bits: u64| {
        let x = f64::from_bits(bits);
        count.case(library::narrow(x), machine::narrow(x), || {
            format!("{bits:016x}")
        });
    };
    for k in 0..1u64 << 28 {
        let n = (k << 4 | random.below(16)) as u32;
        let (low, high) = (
            f32::from_bits(n) as f64,
            f32::from_bits(n.wrapping_add(1)) as f64,
        );
        let half = (low + high) / 2.0;
        for bits in [
            low.to_bits(),
            half.to_bits().wrapping_sub(1),
            half.to_bits(),
            half.to_bits().wrapping_add(1),
        ] {
            case(bits);
        }
    }
    for _ in 0..200_000_000 {
        case(random.bits());
    }
    for _ in 0..200_000_000 {
        let exponent = 860 + random.below(300);
        case((random.bits() & 0x800f_ffff_ffff_ffff) | exponent << 52);
    }
    count.print("patterns");
}

const CALLS: u64 = 40_000_000;

/// Half the calls at any bits, half where the drawing code calls it.
fn in_bulk<T: Copy>(
    name: &'static str,
    any: impl Fn(&mut Random) -> T,
    used: impl Fn(&mut Random) -> T,
    ours: impl Fn(T) -> (f32, f32),
    theirs: impl Fn(T) -> (f32, f32),
    operands: impl Fn(T) -> String,
) {
    let mut count = Count::new(name);
    let mut random = Random(4);
    for k in 0..CALLS {
        let x = if k % 2 == 0 {
            any(&mut random)
        } else {
            used(&mut random)
        };
        let ((a, b), (c, d)) = (ours(x), theirs(x));
        count.case(a, c, || operands(x));
        if !same(b, d) {
            count.differ(b, d, || operands(x));
        }
    }
    count.print("calls");
}

fn one(x: f32) -> String {
    format!("{:08x}", x.to_bits())
}

fn two((x, y): (f32, f32)) -> String {
    format!("{} {}", one(x), one(y))
}

fn pow() {
    in_bulk(
        "pow",
        |r| (r.single(), r.single()),
        pow_operands,
        |(b, y)| (library::pow(b, y), 0.0),
        |(b, y)| (elementary::pow(b, y), 0.0),
        two,
    );
}

/// Bases from 0 to 2 or at any scale, exponents n, n - 1 or 1/n of a degree n up to 1.1e8.
fn pow_operands(r: &mut Random) -> (f32, f32) {
    let b = if r.below(2) == 0 {
        r.within(0.0, 2.0)
    } else {
        r.scaled(1e-45, 3.4e38)
    };
    let greatest = if r.below(2) == 0 { 20.0 } else { 1.1e8 };
    let n = r.scaled(2.0, greatest);
    let y = match r.below(3) {
        0 => n,
        1 => n - 1.0,
        _ => 1.0 / n,
    };
    (b as f32, y as f32)
}

fn sin_cos() {
    in_bulk(
        "sin_cos",
        Random::single,
        |r| r.within(-8.0, 8.0) as f32,
        library::sin_cos,
        elementary::sin_cos,
        one,
    );
}

fn tan() {
    in_bulk(
        "tan",
        Random::single,
        |r| r.within(-8.0, 8.0) as f32,
        |t| (library::tan(t), 0.0),
        |t| (elementary::tan(t), 0.0),
        one,
    );
}

fn atan2() {
    in_bulk(
        "atan2",
        |r| (r.single(), r.single()),
        |r| (r.within(-2e3, 2e3) as f32, r.within(-2e3, 2e3) as f32),
        |(y, x)| (library::atan2(y, x), 0.0),
        |(y, x)| (elementary::atan2(y, x), 0.0),
        two,
    );
}

pub fn run(names: &[&str]) {
    let all: [(&str, fn()); 6] = [
        ("sqrt", sqrt),
        ("narrow", narrow),
        ("pow", pow),
        ("sin_cos", sin_cos),
        ("tan", tan),
        ("atan2", atan2),
    ];
    for (name, compare) in all {
        if names.is_empty() || names.contains(&name) {
            compare();
        }
    }
}
