use kurbo::{BezPath, PathEl};
use shackletongue::{CheckedPath, Point, Segment};

pub fn bez_path(path: CheckedPath<'_>) -> BezPath {
    let at = |p: Point| kurbo::Point::new(p.x.into(), p.y.into());
    path.segments()
        .map(|segment| match segment {
            Segment::Move(p) => PathEl::MoveTo(at(p)),
            Segment::Line(p) => PathEl::LineTo(at(p)),
            Segment::Quad(c, p) => PathEl::QuadTo(at(c), at(p)),
            Segment::Cubic(c, d, p) => PathEl::CurveTo(at(c), at(d), at(p)),
            Segment::Close => PathEl::ClosePath,
        })
        .collect()
}
