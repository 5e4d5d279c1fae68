//! The proved library's functions, as the crate in bindings/rust declares them.

#[allow(dead_code)]
#[path = "../../bindings/rust/src/raw.rs"]
mod raw;

pub use raw::*;

pub fn sin_cos(t: f32) -> (f32, f32) {
    let (mut sin, mut cos) = (0.0, 0.0);
    raw::sin_cos(t, &mut sin, &mut cos);
    (sin, cos)
}

/// A path in buffers of its own, with its record: verb count, point count and joint word; start and pen.
#[derive(Clone, Debug)]
pub struct Path {
    pub counts: Counts,
    pub places: Places,
    pub verbs: Vec<u8>,
    pub floats: Vec<f32>,
}

impl Path {
    /// An empty path with this much room.
    pub fn with_room(verbs: usize, points: usize) -> Path {
        Path {
            counts: [0; 3],
            places: [0.0; 4],
            verbs: vec![0; verbs],
            floats: vec![0.0; 2 * points],
        }
    }

    pub fn clear(&mut self) {
        self.counts = [0; 3];
        self.places = [0.0; 4];
    }

    pub fn held_verbs(&self) -> &[u8] {
        &self.verbs[..self.counts[0] as usize]
    }

    pub fn held_floats(&self) -> &[f32] {
        &self.floats[..2 * self.counts[1] as usize]
    }

    /// For a building call.
    pub fn lent(&mut self) -> Lent<'_> {
        Lent {
            counts: &mut self.counts,
            places: &mut self.places,
            verbs: &mut self.verbs,
            points: &mut self.floats,
        }
    }

    /// To be read.
    pub fn held(&self) -> Held<'_> {
        Held {
            counts: &self.counts,
            places: &self.places,
            verbs: &self.verbs,
            points: &self.floats,
        }
    }
}
