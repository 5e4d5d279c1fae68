//! What each call adds, on examples in which no two arguments are alike.
#![allow(clippy::unwrap_used)]

use shackletongue::{
    float, Button, CheckedPath, CornerRadii, Error, Need, PanelBuilder, Path, PathBuilder,
    PathRecord, Point, Rect, RoundSuperellipse, Segment,
};

/// The path as SVG path data, which is that of its segments.
fn data(path: &PathBuilder<'_>) -> String {
    let data = path.to_svg().unwrap();
    let parts: String = path.segments().map(|s| s.to_string()).collect();
    assert_eq!(data, parts);
    data
}

#[test]
fn each_call_adds_its_segment() {
    let mut path = PathBuilder::new();
    path.move_to((1.0, 2.0)).unwrap();
    path.line_to((3.0, 4.5)).unwrap();
    path.quad_to((-5.0, 6.0), (7.0, 8.0)).unwrap();
    path.cubic_to((9.0, 10.0), (11.0, 12.0), (13.0, 14.0))
        .unwrap();
    let record = path.record();
    assert_eq!((record.verbs, record.points), (4, 7));
    assert_eq!(record.start, Point::new(1.0, 2.0));
    assert_eq!(record.pen, Point::new(13.0, 14.0));
    path.close().unwrap();
    assert_eq!(path.record().pen, record.start);
    assert_eq!(data(&path), "M1 2L3 4.5Q-5 6 7 8C9 10 11 12 13 14Z");
    let bounds = Rect::new((-5.0, 2.0), (13.0, 14.0));
    assert_eq!(path.bounding_box(), Some(bounds));
    assert_eq!(path.segments().len(), 5);
}

#[test]
fn an_empty_path_is_opened_at_the_origin() {
    type Call = fn(&mut PathBuilder<'_>) -> Result<(), Error>;
    let calls: [(Call, &str); 6] = [
        (|p| p.move_to((1.0, 2.0)), "M1 2"),
        (|p| p.line_to((1.0, 2.0)), "M0 0L1 2"),
        (|p| p.quad_to((1.0, 2.0), (3.0, 4.0)), "M0 0Q1 2 3 4"),
        (
            |p| p.cubic_to((1.0, 2.0), (3.0, 4.0), (5.0, 6.0)),
            "M0 0C1 2 3 4 5 6",
        ),
        (
            |p| p.conic_to((1.0, 2.0), (3.0, 4.0), 0.0).map(|_| ()),
            "M0 0L3 4",
        ),
        (|p| p.close(), ""),
    ];
    for (call, expected) in calls {
        let mut path = PathBuilder::new();
        call(&mut path).unwrap();
        assert_eq!(data(&path), expected);
    }
}

/// The worked examples of conics: one quad, a line for a weight of 0 or a NaN, and 64 quads.
#[test]
fn conics_and_their_words() {
    let conic = |weight: f32| {
        let mut path = PathBuilder::new();
        let word = path.conic_to((1.0, 0.0), (2.0, 0.0), weight).unwrap();
        (data(&path), word)
    };
    assert_eq!(conic(1.0), ("M0 0Q1 0 2 0".to_string(), 1));
    assert_eq!(conic(3.0), ("M0 0Q1 0 2 0".to_string(), 1));
    assert_eq!(conic(0.0), ("M0 0L2 0".to_string(), 0));
    assert_eq!(conic(f32::NAN), ("M0 0L2 0".to_string(), 0));

    let need = Need {
        verbs: 65,
        points: 129,
    };
    let origin = Point::default();
    let mut path = PathBuilder::fixed(need).unwrap();
    assert_eq!(path.conic_need(origin, origin, 3.0), need);
    assert_eq!(path.conic_to(origin, origin, 3.0), Ok(u64::MAX));
    let mut path = PathBuilder::fixed(Need { verbs: 64, ..need }).unwrap();
    assert_eq!(path.conic_to(origin, origin, 3.0), Err(Error::NoRoom));
}

/// The worked example of an outline.
#[test]
fn the_outline_of_a_square() {
    let bounds = Rect::new((0.0, 0.0), (10.0, 10.0));
    let square = RoundSuperellipse::new(bounds, CornerRadii::default()).unwrap();
    let mut path = PathBuilder::new();
    path.add(&square).unwrap();
    let outline = "M5 0L10 0L10 5L10 10L5 10L0 10L0 5L0 0L5 0L5 0Z";
    assert_eq!(data(&path), outline);
    assert_eq!(square.to_path().unwrap().path(), path.path());
    // a second contour goes behind the first
    path.add(&square).unwrap();
    assert_eq!(data(&path), outline.repeat(2));
}

#[test]
fn each_radius_belongs_to_its_corner() {
    let bounds = Rect::new((0.0, 0.0), (20.0, 20.0));
    let corners = [(0.5, 0.5), (19.5, 0.5), (0.5, 19.5), (19.5, 19.5)];
    for rounded in 0..4 {
        let radius = |corner| {
            Point::from(if corner == rounded {
                (9.0, 8.0)
            } else {
                (1.0, 1.0)
            })
        };
        let radii = CornerRadii {
            top_left: radius(0),
            top_right: radius(1),
            bottom_left: radius(2),
            bottom_right: radius(3),
        };
        let shape = RoundSuperellipse::new(bounds, radii).unwrap();
        for (corner, point) in corners.iter().enumerate() {
            assert_eq!(shape.contains(*point), corner != rounded);
        }
    }
}

/// Equal paths hold the same bits, whatever lies behind them and wherever the pen is said to be.
#[test]
fn paths_are_equal_by_what_they_hold() {
    let record = |verbs, points| PathRecord {
        verbs,
        points,
        ..PathRecord::default()
    };
    let floats = |x: f32| [x, 0.0, 5.0, 6.0];
    let (nan, other_nan) = (floats(f32::NAN), floats(-f32::NAN));
    let path = Path::new(record(1, 1), &[0, 1], &nan);
    assert_eq!(path, path);
    assert_eq!(path, Path::new(record(1, 1), &[0, 4], &nan[..2]));
    let moved = PathRecord {
        pen: Point::new(9.0, 9.0),
        ..record(1, 1)
    };
    assert_eq!(path, Path::new(moved, &[0], &nan));
    assert_ne!(path, Path::new(record(1, 1), &[0], &other_nan));
    assert_ne!(path, Path::new(record(1, 1), &[1], &nan));
    assert_ne!(path, Path::new(record(2, 2), &[0, 1], &nan));
    let (zero, minus_zero) = (floats(0.0), floats(-0.0));
    let zeros = [zero, minus_zero].map(|x| Path::new(record(1, 1), &[0], &x).segments().next());
    assert_eq!(zeros[0], zeros[1]);
    assert_ne!(
        Path::new(record(1, 1), &[0], &zero),
        Path::new(record(1, 1), &[0], &minus_zero)
    );
}

/// SVG data begins with a move, and has no word for a NaN.
#[test]
fn paths_of_other_origin_as_svg() {
    let record = PathRecord {
        verbs: 2,
        points: 1,
        ..PathRecord::default()
    };
    let path = Path::new(record, &[1, 4], &[1.0, 2.5]);
    assert_eq!(path.to_svg(), Ok("M0 0L1 2.5Z".to_string()));
    let path = Path::new(record, &[4, 0], &[1.0, f32::NAN]);
    assert_eq!(path.to_svg(), Err(Error::NotFinite { verb: 1 }));
    assert!(!path.check().unwrap().is_finite());
    let path = Path::new(record, &[0, 5], &[1.0, f32::NAN]);
    assert_eq!(path.to_svg(), Err(Error::Malformed { verb: 1 }));
    assert_eq!(PathBuilder::new().to_svg(), Ok(String::new()));
}

#[test]
fn a_segment_is_written_as_numbers() {
    let written = |x: f32| Segment::Line(Point::new(x, -0.5)).to_string();
    assert_eq!(written(f32::NAN), "L0 -0.5");
    assert_eq!(written(f32::INFINITY), written(f32::MAX));
    assert_eq!(written(f32::NEG_INFINITY), written(f32::MIN));
    assert_eq!(written(-0.0), "L-0 -0.5");
    let segment = Segment::Quad(Point::new(1.25, 2.0), Point::new(f32::NAN, 0.0));
    assert_eq!(format!("{segment:.1}"), "Q1.2 2.0 0.0 0.0");
    // what would pad a number pads nothing
    assert_eq!(format!("{segment:*>9}"), "Q1.25 2 0 0");
    assert!(!segment.is_finite() && Segment::Close.is_finite());
}

#[test]
fn a_clone_goes_its_own_way() {
    let mut path = PathBuilder::new();
    path.move_to((1.0, 2.0)).unwrap();
    let mut twin = path.clone();
    twin.line_to((3.0, 4.0)).unwrap();
    assert_eq!(
        (data(&path), data(&twin)),
        ("M1 2".into(), "M1 2L3 4".into())
    );

    // a clone of lent memory has room for as much, of its own
    let (mut verbs, mut points) = ([7; 2], [0.5; 5]);
    let mut lent = PathBuilder::lent(&mut verbs, &mut points);
    lent.move_to((1.0, 2.0)).unwrap();
    let mut twin = lent.clone();
    assert_eq!(twin.room(), lent.room());
    twin.line_to((3.0, 4.0)).unwrap();
    assert_eq!(twin.close(), Err(Error::NoRoom));
    assert_eq!(
        (data(&lent), data(&twin)),
        ("M1 2".into(), "M1 2L3 4".into())
    );
    assert_eq!((verbs, points), ([0, 7], [1.0, 2.0, 0.5, 0.5, 0.5]));
}

#[test]
fn shapes_buttons_and_records_are_made_of_each_other() {
    let bounds = Rect::new((0.0, 0.0), (10.0, 10.0));
    let shape = RoundSuperellipse::new(bounds, CornerRadii::uniform(3.0)).unwrap();
    let mut panel = PanelBuilder::new();
    panel.add_button(shape).unwrap();
    assert_eq!(panel.panel().buttons().next(), Some(Button::from(shape)));
    assert_eq!(RoundSuperellipse::try_from(Button::from(shape)), Ok(shape));
    let path = shape.to_path().unwrap();
    assert_eq!(Path::from(path.path()).check(), Ok(path.path()));
    assert_eq!(
        CheckedPath::try_from(Path::from(path.path())),
        Ok(path.path())
    );
}

#[test]
fn float_functions_are_near_the_platform_s() {
    let near = |a: f32, b: f32| assert!((a - b).abs() <= 1e-6 * b.abs(), "{a} {b}");
    assert_eq!(float::narrow(0.1), 0.1);
    assert_eq!(float::sqrt(2.0), 2.0_f32.sqrt());
    near(float::pow(3.0, 0.7), 3.0_f32.powf(0.7));
    near(float::tan(0.4), 0.4_f32.tan());
    near(float::atan2(1.0, -3.0), 1.0_f32.atan2(-3.0));
    let (sin, cos) = float::sin_cos(0.4);
    near(sin, 0.4_f32.sin());
    near(cos, 0.4_f32.cos());
}
