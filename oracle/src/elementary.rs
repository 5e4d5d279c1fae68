//! The elementary functions (docs/SPECIFICATION.md): pow, sin and cos, tan and atan2 written out in
//! f64 steps, each rounded once in the order written, with no fused steps; and min, max and clamp.
//! `as f64` is exact, `as f32` rounds to nearest, ties to even.

use std::f64::consts::{LN_2, PI};

/// Of a NaN and a number the number; of equals, -0 and +0 among them, the first.
pub fn min(a: f32, b: f32) -> f32 {
    if a.is_nan() || b < a {
        b
    } else {
        a
    }
}

/// Of a NaN and a number the number; of equals, -0 and +0 among them, the first.
pub fn max(a: f32, b: f32) -> f32 {
    if a.is_nan() || a < b {
        b
    } else {
        a
    }
}

/// Keeps a NaN. It is std's wherever std's has an answer, which it has for lo ≤ hi alone.
pub fn clamp(x: f32, lo: f32, hi: f32) -> f32 {
    if x < lo {
        lo
    } else if x > hi {
        hi
    } else {
        x
    }
}

/// Horner's scheme of a row c_0 to c_m: begin with c_m; for k from m - 1 down to 0 multiply by z
/// and add c_k.
#[inline(always)]
fn horner<const N: usize>(c: &[f64; N], z: f64) -> f64 {
    let mut sum = c[N - 1];
    for k in (0..N - 1).rev() {
        sum = sum * z + c[k];
    }
    sum
}

/// 1/(2k+1), each the rounded quotient, with (−1)^k where `turned`.
const fn odd_reciprocals<const N: usize>(turned: bool) -> [f64; N] {
    let mut c = [0.0; N];
    let mut k = 0;
    while k < N {
        c[k] = 1.0 / (2 * k + 1) as f64;
        if turned && k % 2 == 1 {
            c[k] = -c[k];
        }
        k += 1;
    }
    c
}

/// 1/(stride·k + first)!, each the rounded quotient, with (−1)^k where `turned`.
const fn factorial_reciprocals<const N: usize>(stride: u64, first: u64, turned: bool) -> [f64; N] {
    let mut c = [0.0; N];
    let mut k = 0;
    while k < N {
        let mut factorial = 1;
        let mut i = 2;
        while i <= stride * k as u64 + first {
            factorial *= i;
            i += 1;
        }
        c[k] = 1.0 / factorial as f64;
        if turned && k % 2 == 1 {
            c[k] = -c[k];
        }
        k += 1;
    }
    c
}

const LN: [f64; 12] = odd_reciprocals(false);
const EXP: [f64; 14] = factorial_reciprocals(1, 0, false);
const SIN: [f64; 8] = factorial_reciprocals(2, 1, true);
const COS: [f64; 8] = factorial_reciprocals(2, 0, true);
const ATAN: [f64; 26] = odd_reciprocals(true);

pub fn pow(b: f32, y: f32) -> f32 {
    if b.is_nan() || y.is_nan() {
        return f32::NAN;
    }
    if b < 0.0 {
        return f32::NAN;
    }
    if b == 1.0 {
        return 1.0;
    }
    if y == 0.0 {
        return 1.0;
    }
    if b == 0.0 {
        return if y > 0.0 { 0.0 } else { f32::INFINITY };
    }
    if b.is_infinite() {
        return if y > 0.0 { f32::INFINITY } else { 0.0 };
    }
    if y.is_infinite() {
        return if (b < 1.0) == (y > 0.0) {
            0.0
        } else {
            f32::INFINITY
        };
    }
    exp(y as f64 * ln(b as f64)) as f32
}

/// For a finite u above zero that is no subnormal f64: every widened f32 is.
pub fn ln(u: f64) -> f64 {
    let bits = u.to_bits();
    let mut e = (bits >> 52) as i64 - 1023;
    let mut f = f64::from_bits(bits % (1 << 52) + (1023 << 52));
    if f >= 1.5 {
        f *= 0.5;
        e += 1;
    }
    let s = (f - 1.0) / (f + 1.0);
    let z = s * s;
    e as f64 * LN_2 + (2.0 * s) * horner(&LN, z)
}

/// For a t that is no NaN.
pub fn exp(t: f64) -> f64 {
    if t > 100.0 {
        return f64::INFINITY;
    }
    if t < -110.0 {
        return 0.0;
    }
    let g = (t / LN_2 + 0.5).floor();
    let r = t - g * LN_2;
    // 2^g by its pattern: g is a whole number from -159 to 145
    let scale = f64::from_bits(((g as i64 + 1023) as u64) << 52);
    horner(&EXP, r) * scale
}

/// The pair (s, c) before it is narrowed.
fn sin_cos_wide(t: f32) -> (f64, f64) {
    let t = t as f64;
    if t.is_nan() || t.abs() > 8.0 {
        return (f64::NAN, f64::NAN);
    }
    let q = t / 16.0;
    let z = q * q;
    let mut s = q * horner(&SIN, z);
    let mut c = horner(&COS, z);
    for _ in 0..4 {
        (s, c) = ((2.0 * s) * c, c * c - s * s);
    }
    (s, c)
}

pub fn sin_cos(t: f32) -> (f32, f32) {
    let (s, c) = sin_cos_wide(t);
    (s as f32, c as f32)
}

pub fn tan(t: f32) -> f32 {
    let (s, c) = sin_cos_wide(t);
    (s / c) as f32
}

pub fn atan2(y: f32, x: f32) -> f32 {
    let (y, x) = (y as f64, x as f64);
    if !y.is_finite() || !x.is_finite() {
        return f32::NAN;
    }
    if y == 0.0 && x == 0.0 {
        return 0.0;
    }
    let (a, b) = (y.abs(), x.abs());
    let mut v = if a <= b {
        first_octants(a / b)
    } else {
        PI / 2.0 - first_octants(b / a)
    };
    if x < 0.0 {
        v = PI - v;
    }
    if y < 0.0 {
        v = -v;
    }
    v as f32
}

/// The angle whose tangent is r, of 0 to 1: above a half by its difference from that of 1.
fn first_octants(r: f64) -> f64 {
    if r <= 0.5 {
        atan_series(r)
    } else {
        PI / 4.0 + atan_series((r - 1.0) / (r + 1.0))
    }
}

/// The same by its series, for an r of -1/3 to 1/2.
fn atan_series(r: f64) -> f64 {
    r * horner(&ATAN, r * r)
}

/// The functions as methods, under names that no method of f32 has, for the original's text.
pub trait Written {
    fn written_powf(self, y: f32) -> f32;
    fn written_atan2(self, x: f32) -> f32;
    fn written_sin_cos(self) -> (f32, f32);
    fn written_tan(self) -> f32;
}

impl Written for f32 {
    fn written_powf(self, y: f32) -> f32 {
        pow(self, y)
    }
    fn written_atan2(self, x: f32) -> f32 {
        atan2(self, x)
    }
    fn written_sin_cos(self) -> (f32, f32) {
        sin_cos(self)
    }
    fn written_tan(self) -> f32 {
        tan(self)
    }
}
