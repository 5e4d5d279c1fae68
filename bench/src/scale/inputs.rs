//! Inputs at random, with a preference for where a rule changes.

use oracle::random::Random;
use oracle::shapes;
use oracle::stream::Call;
use oracle::vec2::Vec2;

use crate::library::Sizes;

/// Floats at which something may go wrong.
const SPECIAL: [f32; 18] = [
    0.0,
    -0.0,
    f32::NAN,
    f32::INFINITY,
    f32::NEG_INFINITY,
    1.0,
    -1.0,
    1e-45,
    -1e-45,
    1e-40,
    f32::MIN_POSITIVE,
    f32::MAX,
    f32::MIN,
    1e20,
    16384.0,
    -16384.0,
    16384.002,
    1e-3,
];

pub struct Inputs {
    pub random: Random,
    /// Shapes at which a rule of the original changes, and shapes that are refused.
    listed: Vec<Sizes>,
}

/// The float so many places further from zero.
pub fn stepped(x: f32, steps: i32) -> f32 {
    f32::from_bits(x.to_bits().wrapping_add_signed(steps))
}

impl Inputs {
    pub fn new() -> Inputs {
        let listed = shapes::shapes().into_iter();
        Inputs {
            random: Random(0),
            listed: listed.chain(shapes::refused_shapes()).collect(),
        }
    }

    pub fn below(&mut self, n: usize) -> usize {
        self.random.below(n as u64) as usize
    }

    pub fn one_in(&mut self, n: usize) -> bool {
        self.below(n) == 0
    }

    pub fn within(&mut self, low: f64, high: f64) -> f32 {
        self.random.within(low, high) as f32
    }

    fn scaled(&mut self, low: f64, high: f64) -> f32 {
        self.random.scaled(low, high) as f32
    }

    pub fn pick<T: Copy>(&mut self, list: &[T]) -> T {
        list[self.below(list.len())]
    }

    /// Up to three floats to either side.
    pub fn near(&mut self, x: f32) -> f32 {
        let steps = self.below(7) as i32 - 3;
        stepped(x, steps)
    }

    /// A float for a buffer: any bits.
    pub fn any(&mut self) -> f32 {
        self.random.single()
    }

    pub fn special(&mut self) -> f32 {
        self.pick(&SPECIAL)
    }

    pub fn coordinate(&mut self) -> f32 {
        match self.below(16) {
            0 => self.special(),
            1 => self.any(),
            2..=5 => self.within(-20.0, 20.0).floor(),
            6 => self.within(-16384.0, 16384.0),
            _ => self.within(-500.0, 500.0),
        }
    }

    pub fn point(&mut self) -> Vec2 {
        Vec2::new(self.coordinate(), self.coordinate())
    }

    // ---- shapes

    fn least(&mut self) -> f32 {
        match self.below(6) {
            0 => 0.0,
            1 => self.within(-1000.0, 1000.0).floor(),
            2 => (self.within(-3000.0, 3000.0)).floor() / 10.0,
            3 => self.within(-16384.0, 16384.0),
            4 => self.pick(&[-16384.0, 1024.0, 4096.0, 8191.9]),
            _ => self.within(-2000.0, 2000.0),
        }
    }

    fn side(&mut self) -> f32 {
        match self.below(8) {
            0 => self.scaled(1e-4, 1.0),
            1 => self.scaled(1.0, 32768.0),
            2 => self.within(1.0, 400.0).floor(),
            3 => self.within(1.0, 4000.0).floor() / 10.0,
            4 if self.one_in(3) => 0.0,
            _ => self.scaled(4.0, 800.0),
        }
    }

    /// A radius beside a side of this length.
    fn radius(&mut self, side: f32) -> f32 {
        let side = side.max(1e-3) as f64;
        match self.below(12) {
            0 => 0.0,
            1 => self.near(1e-3),
            2 => self.scaled(1e-4, 1.0),
            3 => self.within(0.0, 4.0 * side),
            4 => (side / 2.0) as f32,
            5 => (side / self.random.within(4.0, 60.0)) as f32,
            6 => (side / self.random.scaled(10.0, 1e8)) as f32,
            _ => self.within(0.0, side / 2.0),
        }
    }

    fn radii(&mut self, [width, height]: [f32; 2]) -> [f32; 8] {
        let lesser = width.min(height);
        let round = |inputs: &mut Inputs| [inputs.radius(lesser); 2];
        let oval = |inputs: &mut Inputs| [inputs.radius(width), inputs.radius(height)];
        let corners = match self.below(8) {
            0..=2 => [round(self); 4],
            3 => [oval(self); 4],
            4 => {
                let (a, b) = (round(self), round(self));
                [a, a, b, b]
            }
            5 => [(); 4].map(|()| round(self)),
            _ => [(); 4].map(|()| oval(self)),
        };
        let mut radii = [0.0; 8];
        radii
            .iter_mut()
            .zip(corners.into_iter().flatten())
            .for_each(|(r, x)| *r = x);
        if self.one_in(8) {
            let zero = self.pick(&[0.0, -0.0]);
            radii[self.below(8)] = zero;
        }
        radii
    }

    /// min, max and radii within the limits, nearly always.
    pub fn good_sizes(&mut self) -> Sizes {
        let min = [self.least(), self.least()];
        let mut side = [self.side(), self.side()];
        if self.one_in(4) {
            side[1] = side[0];
        }
        let max = [0, 1].map(|i| (min[i] + side[i]).min(16384.0));
        let mut sizes = [0.0; 12];
        sizes[..2].copy_from_slice(&min);
        sizes[2..4].copy_from_slice(&max);
        let radii = self.radii([max[0] - min[0], max[1] - min[1]]);
        sizes[4..].copy_from_slice(&radii.map(|r| r.min(16384.0)));
        sizes
    }

    /// One float stepped, or another one in its place; min and max in the wrong order.
    fn disturb(&mut self, sizes: &mut Sizes) {
        let at = self.below(12);
        match self.below(4) {
            0 => sizes[at] = self.special(),
            1 => sizes[at] = -sizes[at],
            2 => sizes.swap(at % 2, at % 2 + 2),
            _ => sizes[at] = self.near(sizes[at]),
        }
    }

    pub fn sizes(&mut self) -> Sizes {
        let mut sizes = match self.below(8) {
            0 => {
                let listed = self.below(self.listed.len());
                self.listed[listed]
            }
            1 => self.sizes_near(),
            _ => self.good_sizes(),
        };
        for _ in 0..[0, 0, 0, 0, 1, 1, 2, 3][self.below(8)] {
            self.disturb(&mut sizes);
        }
        sizes
    }

    // ---- building calls

    fn weight(&mut self) -> f32 {
        match self.below(6) {
            0 => self.special(),
            1 => {
                let one = self.pick(&[0.999, 1.001, 1.0]);
                self.near(one)
            }
            _ => self.scaled(0.1, 10.0),
        }
    }

    pub fn call(&mut self) -> Call {
        match self.below(16) {
            0 | 1 => Call::Move(self.point()),
            2 | 3 => Call::Line(self.point()),
            4 | 5 => Call::Quad(self.point(), self.point()),
            6..=9 => Call::Conic(self.point(), self.point(), self.weight()),
            10 | 11 => Call::Cubic(self.point(), self.point(), self.point()),
            12 | 13 => Call::Close,
            _ => Call::Outline(self.sizes()),
        }
    }
}
