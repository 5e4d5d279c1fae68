//! Numbers that look random and are the same at every run, on every platform.

use crate::elementary::{exp, ln};

pub struct Random(pub u64);

impl Random {
    /// splitmix64
    pub fn bits(&mut self) -> u64 {
        self.0 = self.0.wrapping_add(0x9e37_79b9_7f4a_7c15);
        let z = (self.0 ^ (self.0 >> 30)).wrapping_mul(0xbf58_476d_1ce4_e5b9);
        let z = (z ^ (z >> 27)).wrapping_mul(0x94d0_49bb_1331_11eb);
        z ^ (z >> 31)
    }

    pub fn below(&mut self, n: u64) -> u64 {
        self.bits() % n
    }

    /// Any f32, by its bits.
    pub fn single(&mut self) -> f32 {
        f32::from_bits(self.bits() as u32)
    }

    /// Uniform from lo to hi.
    pub fn within(&mut self, lo: f64, hi: f64) -> f64 {
        lo + (hi - lo) * ((self.bits() >> 11) as f64 / (1u64 << 53) as f64)
    }

    /// Its logarithm uniform from that of lo to that of hi, which lie between 1e-47 and 1e43.
    pub fn scaled(&mut self, lo: f64, hi: f64) -> f64 {
        exp(self.within(ln(lo), ln(hi)))
    }

    pub fn sign(&mut self) -> f64 {
        if self.below(2) == 0 {
            1.0
        } else {
            -1.0
        }
    }
}
