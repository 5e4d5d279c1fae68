//! How a path becomes one of kurbo's or of lyon's. The crate's README shows these functions.

mod bez_path;
mod lyon_path;

pub use bez_path::bez_path;
pub use lyon_path::lyon_path;

#[cfg(test)]
mod tests {
    use kurbo::Shape as _;
    use shackletongue::{CornerRadii, Panel, PathBuilder, Rect, RoundSuperellipse};

    use super::*;

    /// A path with every kind of segment.
    fn every_kind() -> PathBuilder<'static> {
        let mut path = PathBuilder::new();
        path.move_to((1.0, 2.0)).unwrap();
        path.line_to((3.0, 4.5)).unwrap();
        path.quad_to((-5.0, 6.0), (7.0, 8.0)).unwrap();
        path.cubic_to((9.0, 10.0), (11.0, 12.0), (13.0, 14.0))
            .unwrap();
        path.close().unwrap();
        path.move_to((20.0, 21.0)).unwrap();
        path.line_to((22.0, 23.0)).unwrap();
        path
    }

    #[test]
    fn every_segment_arrives_in_kurbo() {
        let path = bez_path(every_kind().path());
        assert_eq!(
            path.to_svg(),
            "M1 2L3 4.5Q-5 6 7 8C9 10 11 12 13 14ZM20 21L22 23"
        );
    }

    #[test]
    fn every_segment_arrives_in_lyon() {
        let path = lyon_path(every_kind().path());
        let events: Vec<String> = path.iter().map(|event| format!("{event:?}")).collect();
        let kinds: Vec<&str> = events
            .iter()
            .map(|e| e.split([' ', '{']).next().unwrap())
            .collect();
        let expected = [
            "Begin",
            "Line",
            "Quadratic",
            "Cubic",
            "End",
            "Begin",
            "Line",
            "End",
        ];
        assert_eq!(kinds, expected);
        assert!(events[4].contains("close: true") && events[7].contains("close: false"));
        let mut numbers = Vec::new();
        for event in &events {
            numbers.push(event.matches(".0").count() + event.matches(".5").count());
        }
        assert_eq!(numbers, [2, 4, 6, 8, 4, 2, 4, 4]);
    }

    /// The outline's middle is inside, its corner is not, and its area is nearly that of the shape.
    #[test]
    fn outlines_are_as_large_as_their_shapes() {
        let bounds = Rect::new((10.0, 20.0), (110.0, 80.0));
        let shape = RoundSuperellipse::new(bounds, CornerRadii::uniform(20.0)).unwrap();
        let path = bez_path(shape.to_path().unwrap().path());
        let found = path.bounding_box();
        for (found, size) in [
            (found.x0, 10.0),
            (found.y0, 20.0),
            (found.x1, 110.0),
            (found.y1, 80.0),
        ] {
            assert!((found - size).abs() < 1e-6, "{found} {size}");
        }
        assert_ne!(path.winding(kurbo::Point::new(60.0, 50.0)), 0);
        assert_eq!(path.winding(kurbo::Point::new(11.0, 21.0)), 0);
        let steps = 200;
        let mut inside = 0;
        for i in 0..steps * steps {
            let (x, y) = ((i % steps) as f32 + 0.5, (i / steps) as f32 + 0.5);
            let share = bounds.width() / steps as f32;
            let point = (10.0 + x * share, 20.0 + y * bounds.height() / steps as f32);
            inside += usize::from(shape.contains(point));
        }
        let area = inside as f64 / (steps * steps) as f64 * 6000.0;
        assert!(
            (path.area().abs() - area).abs() < 10.0,
            "{} {area}",
            path.area()
        );
    }

    #[test]
    fn the_sample_arrives_whole() {
        let file = std::fs::read("../../../samples/ringer.panel").unwrap();
        let panel = Panel::new(&file).unwrap();
        for shape in panel.buttons().filter_map(|button| button.shape().ok()) {
            let path = shape.to_path().unwrap();
            let elements = bez_path(path.path()).elements().len();
            assert_eq!(elements, path.record().verbs);
            // an end of each contour is an event of its own, a close is none
            assert_eq!(lyon_path(path.path()).iter().count(), path.record().verbs);
        }
    }
}
