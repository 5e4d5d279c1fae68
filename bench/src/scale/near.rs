//! Shapes just inside and just outside the bounds at which outline and touch area part company
//! (docs/SPECIFICATION.md, "Consistency").

use super::Inputs;
use crate::library::Sizes;

/// How often the side on its axis, and the longer side, go into a magnitude at most.
const OWN: f64 = 16384.0;
const LONGER: f64 = 2048.0;

impl Inputs {
    fn scaled64(&mut self, low: f64, high: f64) -> f64 {
        self.random.scaled(low, high)
    }

    /// From a little within a bound to a hair beyond it.
    fn about(&mut self, bound: f64) -> f64 {
        bound * self.random.within(0.9, 1.01)
    }

    /// Width and height, from the least normal numbers to the limit, from squares to strips.
    fn sides_near(&mut self) -> [f64; 2] {
        let longer = match self.below(5) {
            0 => self.scaled64(1e-4, 1.0),
            1 => self.scaled64(1.0, 32768.0),
            2 => 2f64.powi(self.below(30) as i32 - 15),
            3 => self.scaled64(1e-38, 1e-3),
            _ => self.random.within(1.0, 1000.0),
        };
        let times = match self.below(4) {
            0 => 1.0,
            1 => self.scaled64(1.0, 4.0),
            2 => self.scaled64(1.0, OWN),
            _ => self.about(OWN),
        };
        let mut sides = [longer, longer / times];
        if self.one_in(2) {
            sides.swap(0, 1);
        }
        sides
    }

    /// Where a side begins: at the origin or about it, as far out as the rule lets it be, or anywhere.
    fn place_near(&mut self, side: f64, longer: f64) -> f64 {
        let far = match self.below(7) {
            0 => side,
            1 => side / 2.0,
            2 => self.about(OWN * side),
            3 => self.about(LONGER * longer),
            4 => self.about((OWN * side).min(LONGER * longer)),
            5 => self.random.within(0.0, LONGER * longer),
            _ => self.scaled64(1e-3, 16384.0),
        };
        let far = far.min(16384.0);
        if self.one_in(3) {
            -far
        } else {
            far - side
        }
    }

    fn part_of(&mut self, room: f64) -> f64 {
        match self.below(8) {
            0 => 0.0,
            1 => 1e-3,
            2 => room / 2.0,
            3 => room * self.random.within(1.0, 4.0),
            4 => room / self.scaled64(2.0, 20.0),
            5 => room / self.scaled64(10.0, 1e5),
            6 => self.scaled64(0.00101, 0.01),
            _ => self.random.within(0.0, room),
        }
    }

    /// A corner as oval as the rule lets it be: its longer radius lies along that axis, whose greatest coordinate is given.
    fn oval_near(&mut self, sides: [f64; 2], reach: [f64; 2], axis: usize) -> [f64; 2] {
        let (along, across) = (sides[axis], sides[1 - axis]);
        let great = match self.below(3) {
            0 => along / 2.0,
            1 => along,
            _ => self.random.within(0.0, along),
        };
        let left = ((LONGER * along.max(across) - reach[axis]) / 4.0).max(across);
        let stretch = match self.below(3) {
            0 => left,
            1 => OWN * along,
            _ => left.min(OWN * along),
        };
        let small = great * across / (stretch * self.random.within(0.7, 1.01));
        if axis == 0 {
            [great, small]
        } else {
            [small, great]
        }
    }

    fn corner_near(&mut self, sides: [f64; 2], reach: [f64; 2]) -> [f64; 2] {
        match self.below(8) {
            0 => [self.part_of(sides[0].min(sides[1])); 2],
            1 => sides.map(|side| self.part_of(side)),
            2 => [0.0; 2],
            3 => {
                let part = self.random.within(0.0, 1.0);
                sides.map(|side| part * side)
            }
            axis => self.oval_near(sides, reach, axis % 2),
        }
    }

    fn corners_near(&mut self, sides: [f64; 2], reach: [f64; 2]) -> [[f64; 2]; 4] {
        let [a, b] = [(); 2].map(|()| self.corner_near(sides, reach));
        match self.below(5) {
            0 => [a; 4],
            1 => [a, b, a, b],
            2 => [a, a, b, b],
            3 => {
                let mut one = [[0.0; 2]; 4];
                one[self.below(4)] = a;
                one
            }
            _ => [(); 4].map(|()| self.corner_near(sides, reach)),
        }
    }

    /// min, max and radii, within the limits.
    pub fn sizes_near(&mut self) -> Sizes {
        let sides = self.sides_near();
        let min = sides.map(|side| self.place_near(side, sides[0].max(sides[1])));
        let reach = [0, 1].map(|i| min[i].abs().max((min[i] + sides[i]).abs()));
        let corners = self.corners_near(sides, reach);
        let mut sizes = [0.0; 12];
        for i in 0..2 {
            sizes[i] = min[i] as f32;
            sizes[i + 2] = (min[i] + sides[i]) as f32;
            for (k, corner) in corners.iter().enumerate() {
                sizes[4 + 2 * k + i] = corner[i] as f32;
            }
        }
        for _ in 0..self.pick(&[0, 0, 0, 1, 2]) {
            let at = self.below(12);
            if sizes[at] != 0.0 {
                sizes[at] = self.near(sizes[at]);
            }
        }
        let (places, radii) = sizes.split_at_mut(4);
        places
            .iter_mut()
            .for_each(|x| *x = x.clamp(-16384.0, 16384.0));
        radii.iter_mut().for_each(|x| *x = x.clamp(0.0, 16384.0));
        sizes
    }
}
