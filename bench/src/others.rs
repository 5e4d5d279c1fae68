//! What the library is timed beside, each behind a call as the library's functions are: the
//! machine's own instructions, the oracle's written-out functions and the platform's.

pub mod machine {
    #[inline(never)]
    pub extern "C" fn narrow(x: f64) -> f32 {
        x as f32
    }

    #[inline(never)]
    pub extern "C" fn sqrt(x: f32) -> f32 {
        x.sqrt()
    }
}

pub mod written {
    use oracle::elementary;

    #[inline(never)]
    pub extern "C" fn pow(b: f32, y: f32) -> f32 {
        elementary::pow(b, y)
    }

    #[inline(never)]
    pub fn sin_cos(t: f32) -> (f32, f32) {
        elementary::sin_cos(t)
    }

    #[inline(never)]
    pub extern "C" fn tan(t: f32) -> f32 {
        elementary::tan(t)
    }

    #[inline(never)]
    pub extern "C" fn atan2(y: f32, x: f32) -> f32 {
        elementary::atan2(y, x)
    }
}

pub mod platform {
    #[inline(never)]
    pub extern "C" fn pow(b: f32, y: f32) -> f32 {
        b.powf(y)
    }

    #[inline(never)]
    pub fn sin_cos(t: f32) -> (f32, f32) {
        t.sin_cos()
    }

    #[inline(never)]
    pub extern "C" fn tan(t: f32) -> f32 {
        t.tan()
    }

    #[inline(never)]
    pub extern "C" fn atan2(y: f32, x: f32) -> f32 {
        y.atan2(x)
    }
}

/// The original's shapes on one kind of float functions.
macro_rules! shapes {
    ($name:ident, $variant:ident) => {
        pub mod $name {
            use oracle::vec2::Vec2;
            use oracle::$variant::panel;
            use oracle::$variant::path::{access, PathBuilder};
            use oracle::$variant::superellipse::access::from_sizes;
            use oracle::$variant::superellipse::RoundSuperellipse;

            /// min, max, and the radii top left, top right, bottom left, bottom right.
            #[inline(never)]
            pub fn new(s: &[f32; 12]) -> RoundSuperellipse {
                from_sizes(s)
            }

            /// The outline, into a builder that is cleared first.
            #[inline(never)]
            pub fn outline(shape: &RoundSuperellipse, builder: &mut PathBuilder) {
                access::clear(builder);
                shape.add_to(builder);
            }

            pub use access::with_room;

            /// Where each touch of a good panel file goes.
            #[inline(never)]
            pub fn all_touches(file: &[u8]) -> Vec<Option<usize>> {
                panel::places(&panel::records(file).unwrap_or_default())
            }

            #[inline(never)]
            pub fn contains(shape: &RoundSuperellipse, x: f32, y: f32) -> bool {
                shape.contains(Vec2::new(x, y))
            }
        }
    };
}

shapes!(written_shape, written);
shapes!(native_shape, native);

/// A shape's floats, in the library's order.
pub fn shape_floats(shape: &oracle::written::superellipse::RoundSuperellipse) -> Vec<f32> {
    let (quadrants, same) = oracle::written::superellipse::access::shape_floats(shape);
    let mut floats = quadrants.concat();
    floats.push(same as u8 as f32);
    floats
}

/// The original's builder, whose vectors have their room reserved.
pub mod written_path {
    use crate::library::Path;
    use crate::scale;
    use oracle::vec2::Vec2;
    use oracle::written::path::access;

    pub use oracle::written::path::access::{clear, with_room};
    pub use oracle::written::path::PathBuilder;

    #[inline(never)]
    pub fn move_to(builder: &mut PathBuilder, p: Vec2) {
        builder.move_to(p);
    }

    #[inline(never)]
    pub fn line_to(builder: &mut PathBuilder, p: Vec2) {
        builder.line_to(p);
    }

    #[inline(never)]
    pub fn conic_to(builder: &mut PathBuilder, (ctrl, to, weight): (Vec2, Vec2, f32)) {
        builder.conic_to(ctrl, to, weight);
    }

    /// How many quads a conic from the pen gives.
    pub fn quads(pen: Vec2, conic: (Vec2, Vec2, f32)) -> usize {
        let mut builder = PathBuilder::new();
        builder.move_to(pen);
        conic_to(&mut builder, conic);
        access::verbs(&builder).len() - 1
    }

    /// Whether a path of the library holds the same.
    pub fn same(builder: &PathBuilder, path: &Path) -> bool {
        let verbs = access::verbs(builder).iter().copied();
        let points = access::points(builder).iter().flat_map(|p| [p.x, p.y]);
        verbs
            .map(access::verb_number)
            .eq(path.held_verbs().iter().copied())
            && 2 * access::points(builder).len() == path.held_floats().len()
            && points
                .zip(path.held_floats())
                .all(|(a, b)| scale::same(a, *b))
    }
}
