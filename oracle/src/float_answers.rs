//! One answer for each line of the list of floats: a function's name and its operands.

use oracle::elementary;
use oracle::vec2::Vec2;

use crate::words::{f32_word, f64_word, parse_f32, parse_f64, words};

/// How a function takes its operands and what it gives.
pub enum Function {
    Single(fn(f32) -> f32),
    Double(fn(f64) -> f64),
    Widening(fn(f32) -> f64),
    Narrowing(fn(f64) -> f32),
    Test(fn(f32) -> bool),
    Pair(fn(f32) -> (f32, f32)),
    Binary(fn(f32, f32) -> f32),
    Ternary(fn(f32, f32, f32) -> f32),
    PointTest(fn(Vec2) -> bool),
    PointMeasure(fn(Vec2) -> f32),
    PointUnary(fn(Vec2) -> Vec2),
    PointByNumber(fn(Vec2, f32) -> Vec2),
    PointDistance(fn(Vec2, Vec2) -> f32),
    PointBinary(fn(Vec2, Vec2) -> Vec2),
}

use Function::*;

/// The float functions under the names that the list uses. The machine's own instructions answer
/// for `widen`, `narrow` and `sqrt`: IEEE 754 decides those.
pub const FUNCTIONS: [(&str, Function); 26] = [
    ("widen", Widening(|x| x as f64)),
    ("narrow", Narrowing(|x| x as f32)),
    ("sqrt", Single(f32::sqrt)),
    ("is_finite", Test(f32::is_finite)),
    ("abs", Single(f32::abs)),
    ("abs_f64", Double(f64::abs)),
    ("min", Binary(elementary::min)),
    ("max", Binary(elementary::max)),
    ("clamp", Ternary(elementary::clamp)),
    ("point_add", PointBinary(|p, q| p + q)),
    ("point_sub", PointBinary(|p, q| p - q)),
    ("point_mul", PointBinary(|p, q| p * q)),
    ("point_div", PointBinary(|p, q| p / q)),
    ("point_scale", PointByNumber(|p, k| p * k)),
    ("point_shrink", PointByNumber(|p, k| p / k)),
    ("point_neg", PointUnary(|p| -p)),
    ("point_abs", PointUnary(Vec2::abs)),
    ("point_length_squared", PointMeasure(Vec2::length_squared)),
    (
        "point_distance_squared",
        PointDistance(Vec2::distance_squared),
    ),
    ("point_length", PointMeasure(Vec2::length)),
    ("point_normalize", PointUnary(Vec2::normalize)),
    ("point_is_finite", PointTest(Vec2::is_finite)),
    ("pow", Binary(elementary::pow)),
    ("sin_cos", Pair(elementary::sin_cos)),
    ("tan", Single(elementary::tan)),
    ("atan2", Binary(elementary::atan2)),
];

fn singles<const N: usize>(operands: &[&[u8]]) -> Option<[f32; N]> {
    if operands.len() != N {
        return None;
    }
    let mut x = [0.0; N];
    for (x, word) in x.iter_mut().zip(operands) {
        *x = parse_f32(word)?;
    }
    Some(x)
}

fn double(operands: &[&[u8]]) -> Option<f64> {
    match operands {
        [word] => parse_f64(word),
        _ => None,
    }
}

fn flag(b: bool) -> String {
    (b as u8).to_string()
}

fn point_words(p: Vec2) -> String {
    format!("{} {}", f32_word(p.x), f32_word(p.y))
}

fn answer_of(function: &Function, operands: &[&[u8]]) -> Option<String> {
    Some(match function {
        Single(f) => {
            let [x] = singles(operands)?;
            f32_word(f(x))
        }
        Double(f) => f64_word(f(double(operands)?)),
        Widening(f) => {
            let [x] = singles(operands)?;
            f64_word(f(x))
        }
        Narrowing(f) => f32_word(f(double(operands)?)),
        Test(f) => {
            let [x] = singles(operands)?;
            flag(f(x))
        }
        Pair(f) => {
            let [x] = singles(operands)?;
            let (a, b) = f(x);
            point_words(Vec2::new(a, b))
        }
        Binary(f) => {
            let [a, b] = singles(operands)?;
            f32_word(f(a, b))
        }
        Ternary(f) => {
            let [a, b, c] = singles(operands)?;
            f32_word(f(a, b, c))
        }
        PointTest(f) => {
            let [x, y] = singles(operands)?;
            flag(f(Vec2::new(x, y)))
        }
        PointMeasure(f) => {
            let [x, y] = singles(operands)?;
            f32_word(f(Vec2::new(x, y)))
        }
        PointUnary(f) => {
            let [x, y] = singles(operands)?;
            point_words(f(Vec2::new(x, y)))
        }
        PointByNumber(f) => {
            let [x, y, k] = singles(operands)?;
            point_words(f(Vec2::new(x, y), k))
        }
        PointDistance(f) => {
            let [x, y, z, w] = singles(operands)?;
            f32_word(f(Vec2::new(x, y), Vec2::new(z, w)))
        }
        PointBinary(f) => {
            let [x, y, z, w] = singles(operands)?;
            point_words(f(Vec2::new(x, y), Vec2::new(z, w)))
        }
    })
}

/// What is printed for a line: nothing where it has no word, `bad` where it asks for nothing.
pub fn answer(line: &[u8]) -> Option<String> {
    let Some(words) = words(line) else {
        return Some("bad".to_string());
    };
    let (name, operands) = words.split_first()?;
    let found = FUNCTIONS.iter().find(|(n, _)| n.as_bytes() == *name);
    let text = found.and_then(|(_, function)| answer_of(function, operands));
    Some(text.unwrap_or_else(|| "bad".to_string()))
}
