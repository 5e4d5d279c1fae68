use lyon_path::builder::*;
use lyon_path::math::point;
use shackletongue::{CheckedPath, Point, Segment};

pub fn lyon_path(path: CheckedPath<'_>) -> lyon_path::Path {
    let at = |p: Point| point(p.x, p.y);
    let mut builder = lyon_path::Path::builder().with_svg();
    for segment in path.segments() {
        match segment {
            Segment::Move(p) => {
                builder.move_to(at(p));
            }
            Segment::Line(p) => {
                builder.line_to(at(p));
            }
            Segment::Quad(c, p) => {
                builder.quadratic_bezier_to(at(c), at(p));
            }
            Segment::Cubic(c, d, p) => {
                builder.cubic_bezier_to(at(c), at(d), at(p));
            }
            Segment::Close => builder.close(),
        }
    }
    builder.build()
}
