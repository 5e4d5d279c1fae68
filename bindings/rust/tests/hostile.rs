//! Whatever is passed, every call answers: no panic, and of several refusals the one with the least
//! number.
#![allow(
    clippy::unwrap_used,
    clippy::indexing_slicing,
    clippy::arithmetic_side_effects
)]

mod stored;

use stored::with_one_nan;

use shackletongue::{
    Button, CornerRadii, Error, Need, Panel, PanelBuilder, Path, PathBuilder, PathRecord, Point,
    Rect, RoundSuperellipse,
};

/// Floats that break things.
const NASTY: [f32; 14] = [
    0.0,
    -0.0,
    1.0,
    -1.0,
    f32::NAN,
    f32::INFINITY,
    f32::NEG_INFINITY,
    f32::MAX,
    f32::MIN,
    f32::MIN_POSITIVE,
    1e-45,
    16384.0,
    16384.002,
    -16384.0,
];

/// A small generator (xorshift), so that every run sees the same.
struct Random(u64);

impl Random {
    fn next(&mut self) -> u64 {
        self.0 ^= self.0 << 13;
        self.0 ^= self.0 >> 7;
        self.0 ^= self.0 << 17;
        self.0
    }

    fn below(&mut self, n: usize) -> usize {
        (self.next() % n as u64) as usize
    }

    /// A nasty float, one of any bits, or a plain one.
    fn float(&mut self) -> f32 {
        match self.below(4) {
            0 => NASTY[self.below(NASTY.len())],
            1 => f32::from_bits(self.next() as u32),
            _ => self.below(2000) as f32 / 100.0,
        }
    }

    fn point(&mut self) -> Point {
        Point::new(self.float(), self.float())
    }

    /// A button of plain floats, of which some are replaced by any.
    fn button(&mut self) -> Button {
        let mut f: [f32; 12] = std::array::from_fn(|_| self.below(2000) as f32 / 100.0);
        f[2] += f[0];
        f[3] += f[1];
        for _ in 0..self.below(3) {
            f[self.below(12)] = self.float();
        }
        let point = |i: usize| Point::new(f[i], f[i + 1]);
        Button {
            bounds: Rect::new(point(0), point(2)),
            radii: CornerRadii {
                top_left: point(4),
                top_right: point(6),
                bottom_left: point(8),
                bottom_right: point(10),
            },
        }
    }
}

/// As text: a NaN is equal to itself.
fn shown(value: impl std::fmt::Debug) -> String {
    format!("{value:?}")
}

fn bits(floats: &[f32]) -> Vec<u32> {
    floats.iter().map(|x| x.to_bits()).collect()
}

fn uniform(max: f32, radius: f32) -> Result<RoundSuperellipse, Error> {
    RoundSuperellipse::new(
        Rect::new((0.0, 0.0), (max, max)),
        CornerRadii::uniform(radius),
    )
}

#[test]
fn shapes_are_refused_by_number() {
    for nasty in [f32::NAN, f32::INFINITY, f32::MAX, 16384.002] {
        assert_eq!(uniform(nasty, 1.0), Err(Error::BeyondLimit));
        assert_eq!(uniform(10.0, nasty), Err(Error::BeyondLimit));
    }
    assert_eq!(uniform(10.0, -1e-45), Err(Error::NegativeRadius));
    assert_eq!(uniform(-1.0, 1.0), Err(Error::Inverted));
    // the lower number first
    assert_eq!(uniform(-1.0, -1.0), Err(Error::NegativeRadius));
    assert_eq!(uniform(f32::NAN, -1.0), Err(Error::BeyondLimit));
    assert!(uniform(0.0, 0.0).is_ok());
    assert!(uniform(16384.0, 16384.0).is_ok());
}

#[test]
fn any_shape_is_asked_and_drawn() {
    let mut random = Random(0x5bac_c1e7);
    let mut made = 0;
    for _ in 0..5_000 {
        let button = random.button();
        let Ok(shape) = button.shape() else {
            continue;
        };
        made += 1;
        assert_eq!(
            (shape.bounds(), shape.radii()),
            (button.bounds, button.radii)
        );
        let _ = shape.contains(random.point());
        let need = shape.outline_need();
        assert!((11..=1035).contains(&need.verbs) && need.points <= 2074);
        let mut path = PathBuilder::fixed(need).unwrap();
        path.add(&shape).unwrap();
        let record = path.record();
        assert_eq!((record.verbs, record.points), (need.verbs, need.points));
        assert_eq!(path.segments().count(), need.verbs);
        assert_eq!(path.add(&shape), Err(Error::NoRoom));
        assert_eq!(shown(path.record()), shown(record));
        assert_eq!(path.segments().len(), need.verbs);
        let finite = path.path().is_finite();
        assert!(finite || !shape.is_consistent());
        assert_eq!(finite, path.to_svg().is_ok());
        // a shape that draws a NaN equals itself all the same
        assert_eq!(shape, button.shape().unwrap());
        assert_eq!(path.path(), shape.to_path().unwrap().path());
    }
    assert!(made > 2_000, "{made}");
}

#[test]
fn an_outline_that_parts_from_the_touch_area_is_not_consistent() {
    let radii = CornerRadii {
        top_right: Point::new(0.3, 0.0),
        ..CornerRadii::default()
    };
    let shape = RoundSuperellipse::new(Rect::new((1.9, 0.0), (11.9, 10.0)), radii).unwrap();
    assert!(!shape.is_consistent());
    assert!(!shape.contains((5.0, 1.0)) && shape.contains((-100.0, 1.0)));
}

/// A call of any kind with any floats; the answer says what was asked of it.
fn any_call(random: &mut Random, path: &mut PathBuilder<'_>) -> Result<(), Error> {
    let (p, q, r) = (random.point(), random.point(), random.point());
    match random.below(7) {
        0 => path.move_to(p),
        1 => path.line_to(p),
        2 => path.quad_to(p, q),
        3 => path.conic_to(p, q, random.float()).map(|_| ()),
        4 => path.cubic_to(p, q, r),
        5 => path.close(),
        _ => path.add(&uniform(10.0, random.below(6) as f32).unwrap()),
    }
}

#[test]
fn a_growing_path_takes_every_call() {
    let mut random = Random(7);
    let mut path = PathBuilder::new();
    for _ in 0..2_000 {
        any_call(&mut random, &mut path).unwrap();
    }
    let record = path.record();
    let mut segments = path.segments();
    assert_eq!(segments.len(), record.verbs);
    assert_eq!(segments.by_ref().count(), record.verbs);
    assert_eq!((segments.len(), segments.next()), (0, None));
    let (unchecked, whole) = (Path::from(path.path()), path.path());
    assert!(unchecked.segments().all(|segment| segment.is_ok()));
    assert_eq!(unchecked.check(), Ok(whole));
    assert_eq!(path.path().verbs().len(), record.verbs);
    assert_eq!(path.path().points().len(), 2 * record.points);
    path.clear();
    assert_eq!(path.segments().next(), None);
    assert_eq!(path.bounding_box(), None);
    assert!(path.is_empty() && path.path().is_empty());
}

/// What is printed can be read as SVG path data: letters, each with as many numbers as it takes.
fn is_svg(data: &str) -> bool {
    let mut commands: Vec<(char, String)> = Vec::new();
    for c in data.chars() {
        if c.is_ascii_uppercase() {
            commands.push((c, String::new()));
        } else if let Some((_, numbers)) = commands.last_mut() {
            numbers.push(c);
        } else {
            return false;
        }
    }
    commands.first().is_none_or(|(letter, _)| *letter == 'M')
        && commands.iter().all(|(letter, numbers)| {
            let words: Vec<_> = numbers.split_terminator(' ').collect();
            let count = match letter {
                'M' | 'L' => 2,
                'Q' => 4,
                'C' => 6,
                'Z' => 0,
                _ => return false,
            };
            let digits = |c: char| c.is_ascii_digit() || c == '.' || c == '-';
            let number = |w: &&str| w.chars().all(digits) && w.parse::<f64>().is_ok();
            words.len() == count && words.iter().all(number)
        })
}

#[test]
fn whatever_is_printed_is_svg() {
    let mut random = Random(23);
    assert!(!is_svg("L1 2") && !is_svg("M1 inf") && !is_svg("M1 2Q1 2 3") && is_svg("M1 -.5Z"));
    for _ in 0..2_000 {
        let mut path = PathBuilder::new();
        for _ in 0..random.below(9) {
            any_call(&mut random, &mut path).unwrap();
        }
        let printed: String = path.segments().map(|segment| segment.to_string()).collect();
        assert!(is_svg(&printed), "{printed}");
        match path.to_svg() {
            Ok(data) => assert_eq!(data, printed),
            Err(Error::NotFinite { verb }) => {
                let mut segments = path.segments();
                assert!(segments
                    .by_ref()
                    .take(verb)
                    .all(|segment| segment.is_finite()));
                assert!(!segments.next().unwrap().is_finite());
            }
            Err(error) => assert_eq!(error, Error::NoRoom),
        }
    }
}

#[test]
fn lent_and_fixed_paths_refuse_alike_and_change_nothing() {
    let mut random = Random(11);
    for _ in 0..2_000 {
        let (verbs_room, points_room) = (random.below(90), random.below(180));
        let (mut verbs, mut points) = (vec![9; verbs_room], vec![0.5; 2 * points_room]);
        let mut lent = PathBuilder::lent(&mut verbs, &mut points);
        let mut fixed = PathBuilder::fixed(lent.room()).unwrap();
        assert_eq!(fixed.room(), lent.room());
        let mut again = Random(random.next());
        for _ in 0..20 {
            let seed = again.next();
            let before = lent.record();
            let before_call = lent.clone();
            let answer = any_call(&mut Random(seed), &mut lent);
            let mut twin = if random.below(2) == 0 {
                before_call
            } else {
                fixed.clone()
            };
            assert_eq!(answer, any_call(&mut Random(seed), &mut fixed));
            assert_eq!(answer, any_call(&mut Random(seed), &mut twin));
            assert_eq!(lent.path(), fixed.path());
            assert_eq!(lent.path(), twin.path());
            assert!(matches!(answer, Ok(()) | Err(Error::NoRoom)));
            if answer.is_err() {
                assert_eq!(shown(before), shown(lent.record()));
            }
        }
        let record = lent.record();
        assert!(verbs[record.verbs..].iter().all(|&v| v == 9));
        assert!(points[2 * record.points..].iter().all(|&x| x == 0.5));
    }
}

#[test]
fn no_memory_is_no_room() {
    for huge in [usize::MAX, usize::MAX / 2, usize::MAX / 8] {
        let room = |verbs, points| PathBuilder::fixed(Need { verbs, points }).err();
        assert_eq!(room(huge, 0), Some(Error::NoRoom));
        assert_eq!(room(0, huge), Some(Error::NoRoom));
    }
    let mut none = PathBuilder::fixed(Need::default()).unwrap();
    assert_eq!(none.move_to((1.0, 2.0)), Err(Error::NoRoom));
    assert_eq!((none.close(), none.is_empty()), (Ok(()), true));
    let mut empty = PathBuilder::lent(&mut [], &mut []);
    assert_eq!(empty.move_to((1.0, 2.0)), Err(Error::NoRoom));
    assert_eq!(empty.close(), Ok(()));
    assert_eq!(empty.segments().next(), None);
}

#[test]
fn conic_need_is_what_a_conic_takes() {
    let mut random = Random(13);
    for _ in 0..5_000 {
        let mut path = PathBuilder::new();
        if random.below(2) == 0 {
            path.move_to(random.point()).unwrap();
        }
        let before = path.record();
        let (c, to, weight) = (random.point(), random.point(), random.float());
        let need = path.conic_need(c, to, weight);
        let word = path.conic_to(c, to, weight).unwrap();
        let after = path.record();
        assert_eq!(after.verbs - before.verbs, need.verbs);
        assert_eq!(after.points - before.points, need.points);
        let opened = usize::from(before.verbs == 0);
        // a line has no word
        assert!(word == 0 || word.count_ones() as usize == need.verbs - opened);
    }
}

#[test]
fn any_record_over_any_buffers_is_read() {
    let mut random = Random(17);
    let counts = [
        0,
        1,
        2,
        3,
        7,
        8,
        9,
        usize::MAX / 2,
        usize::MAX / 2 + 1,
        usize::MAX,
    ];
    for _ in 0..20_000 {
        let mut verbs: Vec<u8> = (0..8).map(|_| random.below(6) as u8).collect();
        let mut points: Vec<f32> = (0..15).map(|_| random.float()).collect();
        let record = PathRecord {
            verbs: counts[random.below(counts.len())],
            points: counts[random.below(counts.len())],
            start: random.point(),
            pen: random.point(),
        };
        let path = Path::new(record, &verbs, &points);
        assert_eq!(path, path);
        let bad = record.verbs > 8 || record.points > 7 || record.verbs == 0 && record.points > 0;
        let items: Vec<_> = path.segments().collect();
        let (_, most) = path.segments().size_hint();
        assert!(items.len() <= most.unwrap());
        if bad {
            assert_eq!(items, [Err(Error::BadRecord)]);
            assert_eq!(path.bounding_box(), Err(Error::BadRecord));
            assert_eq!(path.check(), Err(Error::BadRecord));
            assert_eq!(path.to_svg(), Err(Error::BadRecord));
        } else if let Some(Err(error)) = items.last() {
            assert_eq!(
                *error,
                Error::Malformed {
                    verb: items.len() - 1
                }
            );
            assert_eq!(path.bounding_box(), Err(*error));
            assert_eq!(path.check(), Err(*error));
            assert_eq!(path.to_svg(), Err(*error));
        } else {
            assert_eq!(items.len(), record.verbs);
            let checked = path.check().unwrap();
            assert_eq!(path.bounding_box(), Ok(checked.bounding_box()));
            let segments: Vec<_> = checked
                .segments()
                .map(|segment| shown(Ok::<_, Error>(segment)))
                .collect();
            let items: Vec<_> = items.iter().map(shown).collect();
            assert_eq!(segments, items);
            let svg = checked.to_svg();
            assert_eq!(svg.is_ok(), checked.is_finite());
            assert!(svg.is_ok_and(|data| is_svg(&data)) || !checked.is_finite());
        }
        // a builder goes on only with a path that can be read
        let good = path.check().map(|_| ());
        let (held_verbs, held_points) = (verbs.clone(), bits(&points));
        match PathBuilder::resume(record, &mut verbs, &mut points) {
            Err(error) => {
                assert_eq!(good, Err(error));
                assert_eq!((verbs, bits(&points)), (held_verbs, held_points));
            }
            Ok(mut path) => {
                assert_eq!(good, Ok(()));
                let answer = any_call(&mut random, &mut path);
                assert!(matches!(answer, Ok(()) | Err(Error::NoRoom)));
                assert_eq!(path.segments().count(), path.record().verbs);
            }
        }
    }
}

fn touch(x: f32, y: f32) -> Vec<u8> {
    [&[8, 0, 2, 0][..], &x.to_le_bytes(), &y.to_le_bytes()].concat()
}

#[test]
fn broken_files_are_refused_by_offset() {
    let broken = |file: &[u8]| match Panel::new(file) {
        Err(Error::BrokenFile { offset }) => Some(offset),
        _ => None,
    };
    assert_eq!(broken(&[]), None);
    let two = touch(1.0, 2.0).repeat(2);
    for len in 1..24 {
        let offset = if len < 12 { 0 } else { 12 };
        assert_eq!(broken(&two[..len]), (len != 12).then_some(offset));
    }
    assert_eq!(broken(&vec![0; 65_537]), Some(0));
    // over the limit comes first
    assert_eq!(broken(&two.repeat(2731)), Some(0));
    for (length, kind) in [(8, 1), (48, 2), (8, 0), (8, 3), (0xff, 2), (9, 2)] {
        let mut file = two.clone();
        file[12..16].copy_from_slice(&[length, 0, kind, 0]);
        assert_eq!(broken(&file), Some(12));
    }
}

#[test]
fn files_of_any_bytes_are_answered() {
    let sample = include_bytes!("../../../samples/ringer.panel");
    let mut random = Random(19);
    for _ in 0..3_000 {
        let mut file = sample.to_vec();
        for _ in 0..=random.below(3) {
            let at = random.below(file.len());
            file[at] = random.next() as u8;
        }
        file.truncate(random.below(2 * file.len()));
        let Ok(panel) = Panel::new(&file) else {
            continue;
        };
        let all = panel.touch_all().unwrap();
        assert_eq!(all.len(), panel.touches().count());
        for (point, found) in panel.touches().zip(all) {
            assert_eq!(panel.touch(point), found);
            let buttons: Vec<_> = panel.buttons().collect();
            let top = buttons
                .iter()
                .rposition(|b| b.shape().is_ok_and(|s| s.contains(point)));
            assert_eq!(found, top);
        }
        let _ = panel.touch(random.point());
    }
}

#[test]
fn the_largest_file_has_5461_touches() {
    let file = touch(f32::NAN, f32::INFINITY).repeat(5461);
    let panel = Panel::new(&file).unwrap();
    assert_eq!(panel.touch_all(), Ok(vec![None; 5461]));
    assert_eq!(panel.records().count(), 5461);
}

#[test]
fn a_panel_ends_at_65536_bytes() {
    let mut random = Random(29);
    let mut panel = PanelBuilder::new();
    for _ in 0..5461 {
        panel.add_touch(random.point()).unwrap();
    }
    // 4 bytes are free: room for neither
    let full = panel.clone();
    assert_eq!(panel.add_touch((1.0, 2.0)), Err(Error::NoRoom));
    assert_eq!(panel.add_button(random.button()), Err(Error::NoRoom));
    assert_eq!(panel, full);
    assert_eq!(panel.as_bytes().len(), 65_532);
    assert_eq!(panel.panel().records().count(), 5461);

    // as many buttons as there is room for, and a touch that ends on the last byte
    let mut panel = PanelBuilder::new();
    let mut count = 0;
    while panel.add_button(random.button()).is_ok() {
        count += 1;
    }
    assert_eq!((count, panel.as_bytes().len()), (1260, 65_520));
    panel.add_touch(random.point()).unwrap();
    assert_eq!(panel.add_touch(random.point()), Err(Error::NoRoom));
    assert_eq!(panel.as_bytes().len(), 65_532);
    assert!(Panel::new(panel.as_bytes()).is_ok());
    assert_eq!(panel.panel().touch_all().unwrap().len(), 1);
}

#[test]
fn any_records_are_written_as_they_are_read() {
    let mut random = Random(31);
    for _ in 0..2_000 {
        let mut panel = PanelBuilder::new();
        let mut file = Vec::new();
        for _ in 0..random.below(6) {
            if random.below(2) == 0 {
                let (x, y) = (random.float(), random.float());
                panel.add_touch((x, y)).unwrap();
                file.extend(touch(x, y));
            } else {
                let button = random.button();
                panel.add_button(button).unwrap();
                let Button { bounds, radii: r } = button;
                let corners = [r.top_left, r.top_right, r.bottom_left, r.bottom_right];
                file.extend([48, 0, 1, 0]);
                for p in [bounds.min, bounds.max].into_iter().chain(corners) {
                    file.extend([p.x.to_le_bytes(), p.y.to_le_bytes()].concat());
                }
                let record = with_one_nan(&button.to_bytes());
                assert!(with_one_nan(&file).ends_with(&record));
            }
        }
        assert_eq!(with_one_nan(panel.as_bytes()), with_one_nan(&file));
        assert_eq!(Panel::new(panel.as_bytes()), Ok(panel.panel()));
    }
}

#[test]
fn errors_have_their_numbers() {
    let errors = [
        Error::BadRecord,
        Error::BeyondLimit,
        Error::NegativeRadius,
        Error::Inverted,
        Error::NoRoom,
        Error::Malformed { verb: 3 },
        Error::BrokenFile { offset: 52 },
    ];
    for (number, error) in (1..).zip(errors) {
        assert_eq!(error.number(), Some(number));
        let shown: &dyn std::error::Error = &error;
        let shown = shown.to_string();
        // what is wrong, and what to do
        assert!(shown.starts_with(error.reason()) && shown.contains(": "));
    }
    let error = Error::NotFinite { verb: 3 };
    assert_eq!(error.number(), None);
    assert!(error.to_string().contains("verb 3: "));
    assert_eq!(
        Error::Malformed { verb: 9 }
            .to_string()
            .matches("verb 9")
            .count(),
        1
    );
    assert!(Error::BrokenFile { offset: 52 }
        .to_string()
        .contains("at offset 52: "));
    assert_eq!(shackletongue::version(), 2);
}

#[test]
fn every_type_may_change_threads_and_is_shown() {
    fn shown<T: Send + Sync + std::fmt::Debug>(value: T) {
        assert!(format!("{value:?}").len() < 1_000);
    }
    let file = touch(1.0, 2.0).repeat(5461);
    let panel = Panel::new(&file).unwrap();
    shown(panel);
    shown(panel.records());
    shown(PanelBuilder::from(panel));
    shown(uniform(10.0, 2.0).unwrap());
    let mut path = PathBuilder::new();
    path.add(&uniform(10.0, 2.0).unwrap()).unwrap();
    shown(path.path());
    shown(path.segments());
    shown(Path::from(path.path()));
    shown(Path::from(path.path()).segments());
    shown(path);
    shown(Error::NoRoom);
}
