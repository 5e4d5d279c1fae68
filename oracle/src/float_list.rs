//! Test vectors of the float functions for the program `replay_floats`: the same list at every run.

use crate::float_answers::{Function, Function::*, FUNCTIONS};
use crate::words::{f32_word, f64_word};
use oracle::elementary::{exp, ln};
use oracle::random::Random;

/// Values at which a rule changes, by their bits: zeros, the ends of the subnormal and of the
/// normal numbers, 1 and its neighbours, small whole numbers and fractions, 8 and the next above
/// it, the greatest exponent in use, infinities, NaN.
const SPECIAL: [u32; 26] = [
    0x0000_0000,
    0x8000_0000,
    0x0000_0001,
    0x8000_0001,
    0x007f_ffff,
    0x0080_0000,
    0x8080_0000,
    0x3f00_0000,
    0xbf00_0000,
    0x3f7f_ffff,
    0x3f80_0000,
    0xbf80_0000,
    0x3f80_0001,
    0x3fc0_0000,
    0x4000_0000,
    0xc000_0000,
    0x4040_0000,
    0x4100_0000,
    0xc100_0000,
    0x4100_0001,
    0x4cd1_cef0,
    0x7f7f_ffff,
    0xff7f_ffff,
    0x7f80_0000,
    0xff80_0000,
    0x7fc0_0000,
];

const SPECIAL_WIDE: [f64; 26] = [
    0.0,
    -0.0,
    5e-324,
    -5e-324,
    f64::MIN_POSITIVE,
    -f64::MIN_POSITIVE,
    7.006492321624085e-46,
    -7.006492321624085e-46,
    7.006492321624086e-46,
    1.401298464324817e-45,
    2.1019476964872256e-45,
    1.1754943508222875e-38,
    1.1754942807573643e-38,
    1.1754943157898259e-38,
    1.0,
    -1.0,
    0.1,
    -0.1,
    3.4028234663852886e38,
    3.4028235677973366e38,
    -3.4028235677973366e38,
    3.4028235677973362e38,
    f64::MAX,
    f64::INFINITY,
    f64::NEG_INFINITY,
    f64::NAN,
];

/// Any bits, those of a NaN too, which no other word of a vector has.
fn raw_word(bits: u32) -> String {
    format!("{bits:08x}")
}

struct List {
    lines: Vec<String>,
    random: Random,
}

impl List {
    fn heading(&mut self, text: &str) {
        self.lines.push(format!("# {text}"));
    }

    fn line(&mut self, name: &str, operands: &[String]) {
        self.lines.push(format!("{name} {}", operands.join(" ")));
    }

    fn singles(&mut self, name: &str, operands: &[f32]) {
        let words: Vec<String> = operands.iter().map(|x| f32_word(*x)).collect();
        self.line(name, &words);
    }

    fn double(&mut self, name: &str, x: f64) {
        self.line(name, &[f64_word(x)]);
    }
}

/// How many f32 operands; none for one f64.
fn operands(function: &Function) -> Option<usize> {
    match function {
        Double(_) | Narrowing(_) => None,
        Single(_) | Widening(_) | Test(_) | Pair(_) => Some(1),
        Binary(_) | PointTest(_) | PointMeasure(_) | PointUnary(_) => Some(2),
        Ternary(_) | PointByNumber(_) => Some(3),
        PointDistance(_) | PointBinary(_) => Some(4),
    }
}

fn special(i: usize) -> f32 {
    f32::from_bits(SPECIAL[i % SPECIAL.len()])
}

/// Every special value against every special value. An operation that goes by component takes two
/// such pairs at once.
fn specials(list: &mut List, name: &str, function: &Function) {
    let n = SPECIAL.len();
    let pairs = (0..n).flat_map(|i| (0..n).map(move |j| (i, j)));
    match function {
        Double(_) | Narrowing(_) => {
            for x in SPECIAL_WIDE {
                list.double(name, x);
            }
        }
        Single(_) | Widening(_) | Test(_) | Pair(_) => {
            for i in 0..n {
                list.singles(name, &[special(i)]);
            }
        }
        Binary(_) | PointMeasure(_) | PointUnary(_) | PointTest(_) => {
            for (i, j) in pairs {
                list.singles(name, &[special(i), special(j)]);
            }
        }
        Ternary(_) => {
            let few = [1, 5, 10, 11, 14, 22, 23, 24, 25];
            for (i, j) in few.iter().flat_map(|i| few.iter().map(move |j| (*i, *j))) {
                for k in few {
                    list.singles(name, &[special(i), special(j), special(k)]);
                }
            }
        }
        PointByNumber(_) => {
            for (i, j) in pairs.filter(|(i, _)| i % 2 == 0) {
                list.singles(name, &[special(i), special(i + 1), special(j)]);
            }
        }
        PointDistance(_) | PointBinary(_) => {
            for (i, j) in pairs.filter(|(i, _)| i % 2 == 0) {
                list.singles(name, &[special(i), special(i + 1), special(j), special(j)]);
            }
        }
    }
}

fn uniform(list: &mut List, name: &str, function: &Function, count: usize) {
    for _ in 0..count {
        let words = match operands(function) {
            None => vec![format!("{:016x}", list.random.bits())],
            Some(n) => (0..n)
                .map(|_| raw_word(list.random.bits() as u32))
                .collect(),
        };
        list.line(name, &words);
    }
}

/// Coordinates as drawings have them.
fn coordinates(list: &mut List, name: &str, function: &Function, count: usize) {
    let Some(n) = operands(function) else {
        return;
    };
    for _ in 0..count {
        let x: Vec<f32> = (0..n)
            .map(|_| (list.random.sign() * list.random.scaled(1e-4, 2e4)) as f32)
            .collect();
        list.singles(name, &x);
    }
}

fn narrow_halves(list: &mut List) {
    list.heading("narrow: half way between two f32, and one f64 to either side");
    for round in 0..100 {
        // from the least normal exponent to the greatest, the last digit even and odd
        let exponent = 1 + (list.random.below(253) as u32);
        let low =
            f32::from_bits(exponent << 23 | (list.random.bits() as u32 & 0x7f_fffe) | round % 2);
        let high = f32::from_bits(low.to_bits() + 1);
        let half = (low as f64 + high as f64) / 2.0 * list.random.sign();
        for bits in [half.to_bits() - 1, half.to_bits(), half.to_bits() + 1] {
            list.double("narrow", f64::from_bits(bits));
        }
    }
    list.heading("narrow: subnormal f32, in units of half the least one");
    let unit = f32::from_bits(1) as f64 / 2.0;
    let ends = [
        1, 2, 3, 4, 5, 0xff_fffd, 0xff_fffe, 0xff_ffff, 0x100_0000, 0x100_0001, 0x100_0003,
    ];
    let some: Vec<u64> = (0..60).map(|_| list.random.below(0x100_0000)).collect();
    for halves in ends.into_iter().chain(some) {
        let x = halves as f64 * unit * list.random.sign();
        for bits in [x.to_bits().saturating_sub(1), x.to_bits(), x.to_bits() + 1] {
            list.double("narrow", f64::from_bits(bits));
        }
    }
    list.heading("narrow: about the greatest f32 and about zero");
    for _ in 0..60 {
        let x = list.random.sign() * list.random.within(3.40282e38, 3.402824e38);
        list.double("narrow", x);
        let x = list.random.sign() * list.random.scaled(1e-47, 1e-37);
        list.double("narrow", x);
    }
}

fn sqrt_squares(list: &mut List) {
    list.heading("sqrt: perfect squares and their neighbours");
    for _ in 0..120 {
        let k = 1 + list.random.below(4095) as u32;
        let square = (k * k) as f32;
        for bits in [square.to_bits() - 1, square.to_bits(), square.to_bits() + 1] {
            list.singles("sqrt", &[f32::from_bits(bits)]);
        }
    }
    list.heading("sqrt: next to the square of a midpoint between two f32");
    for _ in 0..60 {
        let r = 1.0 + list.random.below(1 << 23) as f64 / (1 << 23) as f64 + 0.5 / (1 << 23) as f64;
        let scale = (2.0f64).powi(2 * (list.random.below(120) as i32 - 60));
        let square = (r * r * scale) as f32;
        for bits in [square.to_bits() - 1, square.to_bits(), square.to_bits() + 1] {
            list.singles("sqrt", &[f32::from_bits(bits)]);
        }
    }
    list.heading("sqrt: subnormal and powers of two");
    for k in 0..32 {
        list.singles("sqrt", &[f32::from_bits(1u32.wrapping_shl(k))]);
        list.singles("sqrt", &[f32::from_bits((k * 8 + 3) << 23)]);
        let below = list.random.below(0x80_0000) as u32;
        list.singles("sqrt", &[f32::from_bits(below)]);
    }
}

fn pow_domain(list: &mut List) {
    list.heading("pow: bases from 0 to 2 and up to infinity, exponents from 0 to 1.1e8 and 1/n");
    for _ in 0..150 {
        let n = list.random.scaled(2.0, 20.0) as f32;
        let b = list.random.within(0.0, 2.0) as f32;
        list.singles("pow", &[b, n]);
        list.singles("pow", &[b, 1.0 / n]);
        list.singles("pow", &[b, n - 1.0]);
    }
    for _ in 0..150 {
        let n = list.random.scaled(1.0, 1.1e8) as f32;
        let b = list.random.within(0.0, 2.0) as f32;
        list.singles("pow", &[b, n]);
        list.singles("pow", &[b, 1.0 / n]);
        // so near 1 that a great exponent stays in range
        let near = exp(list.random.sign() * list.random.scaled(1e-3, 80.0) / n as f64) as f32;
        list.singles("pow", &[near, n]);
    }
    for _ in 0..100 {
        let b = list.random.scaled(1e-45, 3.4e38) as f32;
        let y = list.random.sign() * list.random.scaled(1e-3, 4.0);
        list.singles("pow", &[b, y as f32]);
    }
    list.heading(
        "pow: about the ends of the result's range, and about exp's own limits 100 and -110",
    );
    for limit in [88.72, 100.0, -87.3, -103.97, -110.0] {
        for _ in 0..12 {
            let b = list.random.scaled(1e-30, 1e30);
            let t = limit + list.random.within(-0.3, 0.3);
            list.singles("pow", &[b as f32, (t / ln(b)) as f32]);
        }
    }
}

fn angles(list: &mut List) {
    list.heading(
        "sin_cos and tan: within 8, about it, beyond it, and about the multiples of a quarter turn",
    );
    let edge = 8.0f32;
    let mut t: Vec<f32> = vec![edge, -edge];
    for k in 1..4 {
        for bits in [edge.to_bits() - k, edge.to_bits() + k] {
            t.push(f32::from_bits(bits));
            t.push(-f32::from_bits(bits));
        }
    }
    for k in -6..=6 {
        let quarter = (k as f64 * std::f64::consts::FRAC_PI_2) as f32;
        t.push(quarter);
        t.push(f32::from_bits(quarter.to_bits().wrapping_add(1)));
    }
    t.extend((0..150).map(|_| list.random.within(-8.0, 8.0) as f32));
    t.extend((0..50).map(|_| (list.random.sign() * list.random.scaled(1e-40, 1.0)) as f32));
    t.extend((0..30).map(|_| (list.random.sign() * list.random.scaled(8.0, 1e6)) as f32));
    for t in t {
        list.singles("sin_cos", &[t]);
        list.singles("tan", &[t]);
    }
}

fn atan2_domain(list: &mut List) {
    list.heading("atan2: all ways round, on the diagonals, and where the ratio is about a half");
    for _ in 0..150 {
        let y = list.random.within(-2000.0, 2000.0) as f32;
        let x = list.random.within(-2000.0, 2000.0) as f32;
        list.singles("atan2", &[y, x]);
    }
    for _ in 0..40 {
        let a = list.random.scaled(1e-3, 1e4) as f32;
        let y = a * list.random.sign() as f32;
        let x = a * list.random.sign() as f32;
        list.singles("atan2", &[y, x]);
        list.singles("atan2", &[y, x / 2.0]);
        list.singles("atan2", &[y / 2.0, x]);
        list.singles("atan2", &[f32::from_bits(y.to_bits() + 1), x]);
        list.singles("atan2", &[y, f32::from_bits(x.to_bits() + 1)]);
        list.singles("atan2", &[f32::from_bits(y.to_bits() + 1), x * 2.0]);
    }
    for _ in 0..60 {
        let y = list.random.sign() * list.random.scaled(1e-44, 3e38);
        let x = list.random.sign() * list.random.scaled(1e-44, 3e38);
        list.singles("atan2", &[y as f32, x as f32]);
    }
}

/// Lines that are no vector: each is answered `bad`.
fn bad_lines(list: &mut List) {
    list.heading("lines that are no vectors");
    let lines = [
        "pow 3f800000",
        "pow 3f800000 3f800000 3f800000",
        "pow 3F800000 3f800000",
        "pow 3f80000 3f800000",
        "pow 3f8000000 3f800000",
        "pow 3f80000g 3f800000",
        "pow nan3 3f800000",
        "pow na 3f800000",
        "pow 3ff0000000000000 3f800000",
        "power 3f800000 3f800000",
        "po 3f800000 3f800000",
        "Pow 3f800000 3f800000",
        "narrow 3f800000",
        "widen 3ff0000000000000",
        "point_add 3f800000 3f800000 3f800000",
        "sqrt",
        "0",
        "abs 3f800000\t",
    ];
    for line in lines {
        list.lines.push(line.to_string());
    }
    // one byte over the longest line, and the longest
    list.lines
        .push(format!("abs bf800000 #{}", "-".repeat(1025 - 14)));
    list.lines
        .push(format!("abs bf800000 #{}", "-".repeat(1024 - 14)));
    list.heading("lines that are, in unusual spacing");
    list.lines.push(String::new());
    list.lines.push("   ".to_string());
    list.lines
        .push("   pow   40000000  40400000   ".to_string());
    list.lines.push("pow 40000000 40400000#eight".to_string());
    list.lines.push("pow nan 00000000".to_string());
    list.lines.push("pow ffffffff 3f800000".to_string());
    list.lines.push("narrow fff8000000000001".to_string());
}

pub fn lines() -> Vec<String> {
    let mut list = List {
        lines: Vec::new(),
        random: Random(0x5eed),
    };
    for (name, function) in &FUNCTIONS {
        list.heading(&format!(
            "{name}: special values against each other, any bits, coordinates"
        ));
        specials(&mut list, name, function);
        uniform(&mut list, name, function, 80);
        coordinates(&mut list, name, function, 40);
    }
    narrow_halves(&mut list);
    sqrt_squares(&mut list);
    pow_domain(&mut list);
    angles(&mut list);
    atan2_domain(&mut list);
    bad_lines(&mut list);
    list.lines
}
