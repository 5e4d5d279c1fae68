//! Calls, streams and points for the program `replay_paths`: the same text at every run.

use oracle::random::Random;
use oracle::vec2::Vec2;

use crate::kept_lists;
use crate::outline_lists;
use crate::shapes;
use crate::stream::{point_words, Call, Stream};
use crate::words::f32_word;

/// Coordinates at which something may go wrong.
const SPECIAL: [f32; 14] = [
    0.0,
    -0.0,
    f32::NAN,
    f32::INFINITY,
    f32::NEG_INFINITY,
    1.0,
    -1.0,
    1e-45,
    -1e-40,
    f32::MAX,
    f32::MIN,
    1e20,
    16384.0,
    0.1,
];

/// Zero, negative, not finite, tiny, huge, and about the distance from 1 at which a conic is a quad.
const WEIGHTS: [f32; 30] = [
    0.0,
    -0.0,
    -1.0,
    -1e-45,
    f32::NAN,
    f32::INFINITY,
    f32::NEG_INFINITY,
    1e-45,
    1e-38,
    1e-10,
    1e-3,
    0.5,
    0.70710677,
    0.998,
    0.9989999,
    0.999,
    0.99900013,
    1.0,
    1.0009999,
    1.001,
    1.0010002,
    1.002,
    1.5,
    2.0,
    3.0,
    8.3194,
    1e4,
    1e20,
    1.7e38,
    f32::MAX,
];

pub struct List {
    lines: Vec<String>,
    pub random: Random,
}

pub fn p(x: f32, y: f32) -> Vec2 {
    Vec2::new(x, y)
}

pub fn call_words(call: &Call) -> String {
    let points = |name: &str, list: &[Vec2]| {
        let words: Vec<String> = list.iter().map(|p| point_words(*p)).collect();
        format!("{name} {}", words.join(" "))
    };
    match call {
        Call::Move(a) => points("move", &[*a]),
        Call::Line(a) => points("line", &[*a]),
        Call::Quad(a, b) => points("quad", &[*a, *b]),
        Call::Conic(a, b, w) => format!("{} {}", points("conic", &[*a, *b]), f32_word(*w)),
        Call::Cubic(a, b, c) => points("cubic", &[*a, *b, *c]),
        Call::Close => "close".to_string(),
        Call::Outline(f) => format!("outline {}", f.map(f32_word).join(" ")),
    }
}

/// How many verbs and floats the calls hold from a fresh builder on.
pub fn room(calls: &[Call]) -> (usize, usize) {
    let mut s = Stream::fresh(4096, 16384);
    for call in calls {
        let _ = s.build(*call);
    }
    (s.record.verbs, 2 * s.record.points)
}

impl List {
    pub fn heading(&mut self, text: &str) {
        self.lines.push(format!("# {text}"));
    }

    pub fn line(&mut self, text: String) {
        self.lines.push(text);
    }

    pub fn list(&mut self, verbs: usize, floats: usize, calls: &[Call]) {
        self.line(format!("buffers {verbs} {floats}"));
        self.lines.extend(calls.iter().map(call_words));
    }

    /// The calls in buffers of exactly their length, one verb short, one point short, and with an
    /// odd float more, which is no room, or less.
    fn fitted(&mut self, calls: &[Call]) {
        let (verbs, floats) = room(calls);
        self.list(verbs, floats, calls);
        self.line("box".to_string());
        self.list(verbs.saturating_sub(1), floats, calls);
        self.list(verbs, floats.saturating_sub(2), calls);
        self.list(verbs, floats.saturating_sub(1), calls);
        self.list(verbs, floats + 1, calls);
        self.line("box".to_string());
    }

    fn coordinate(&mut self) -> f32 {
        match self.random.below(8) {
            0 => SPECIAL[self.random.below(14) as usize],
            1..=3 => self.random.within(-20.0, 20.0).floor() as f32,
            _ => self.random.within(-500.0, 500.0) as f32,
        }
    }

    pub fn point(&mut self) -> Vec2 {
        p(self.coordinate(), self.coordinate())
    }

    fn weight(&mut self) -> f32 {
        match self.random.below(3) {
            0 => WEIGHTS[self.random.below(30) as usize],
            _ => self.random.scaled(0.1, 10.0) as f32,
        }
    }

    pub fn call(&mut self) -> Call {
        match self.random.below(12) {
            0 | 1 => Call::Move(self.point()),
            2 | 3 => Call::Line(self.point()),
            4 | 5 => Call::Quad(self.point(), self.point()),
            6..=8 => Call::Conic(self.point(), self.point(), self.weight()),
            9 => Call::Cubic(self.point(), self.point(), self.point()),
            _ => Call::Close,
        }
    }
}

/// Each call on an empty builder, behind a move, behind a NaN pen, behind a close.
fn fits(list: &mut List) {
    list.heading("exact buffers, one short, odd floats");
    let before: [&[Call]; 4] = [
        &[],
        &[Call::Move(p(3.0, 4.0))],
        &[Call::Move(p(f32::NAN, 4.0))],
        &[Call::Line(p(1.0, 2.0)), Call::Close],
    ];
    let calls = [
        Call::Move(p(1.0, 2.0)),
        Call::Line(p(1.0, 2.0)),
        Call::Quad(p(1.0, 2.0), p(5.0, -1.0)),
        Call::Conic(p(1.0, 0.0), p(2.0, 0.0), 1.0),
        Call::Conic(p(1.0, 0.0), p(2.0, 0.0), 0.0),
        Call::Conic(p(10.0, 0.0), p(20.0, 30.0), 3.0),
        Call::Conic(p(0.0, 0.0), p(0.0, 0.0), 3.0),
        Call::Cubic(p(1.0, 2.0), p(3.0, 4.0), p(5.0, 6.0)),
        Call::Close,
    ];
    for front in before {
        for call in calls {
            list.fitted(&[front, &[call]].concat());
        }
    }
}

fn examples(list: &mut List) {
    list.heading("A list of building calls");
    for w in [1.0, 0.0, 3.0, f32::NAN] {
        list.list(8, 16, &[Call::Conic(p(1.0, 0.0), p(2.0, 0.0), w)]);
    }
    for verbs in [65, 64] {
        let zero = Vec2::ZERO;
        list.list(verbs, 258, &[Call::Conic(zero, zero, 3.0)]);
    }
}

fn conics(list: &mut List) {
    list.heading("conics of all weights");
    let places = [
        [p(0.0, 0.0), p(1.0, 0.0), p(2.0, 0.0)],
        [p(5.0, 5.0), p(5.0, 5.0), p(5.0, 5.0)],
        [p(-3.0, 7.5), p(100.25, -40.0), p(-3.0, 7.5)],
        [p(0.0, 0.0), p(10.0, 0.0), p(10.0, 10.0)],
        [p(1600.0, 1861.0), p(1600.5, 1861.0), p(1600.5, 1861.7)],
        [p(f32::NAN, 0.0), p(1.0, 2.0), p(3.0, 4.0)],
        [p(f32::INFINITY, 0.0), p(1.0, 2.0), p(3.0, 4.0)],
        [p(1e30, 1e30), p(-1e30, 3e38), p(3e38, -3e38)],
        [p(1e-40, 0.0), p(1e-42, 1e-41), p(-1e-40, 1e-45)],
    ];
    for [from, ctrl, to] in places {
        for w in WEIGHTS {
            list.list(70, 280, &[Call::Move(from), Call::Conic(ctrl, to, w)]);
        }
    }
    for x in SPECIAL {
        let calls = [
            Call::Conic(p(x, 1.0), p(2.0, 3.0), 0.7),
            Call::Conic(p(1.0, 2.0), p(3.0, x), 0.7),
            Call::Line(p(x, x)),
            Call::Conic(p(1.0, 2.0), p(3.0, 1.0), 2.5),
        ];
        list.list(300, 1200, &calls);
        list.line("box".to_string());
    }
    for _ in 0..60 {
        let from = list.point();
        let calls = [
            Call::Move(from),
            Call::Conic(list.point(), list.point(), list.weight()),
        ];
        list.list(66, 262, &calls);
    }
}

fn closes(list: &mut List) {
    list.heading("closes on empty, two in a row, lines behind a close, several contours");
    let (a, b) = (p(1.0, 2.0), p(-3.0, 4.5));
    let lists: [&[Call]; 6] = [
        &[Call::Close, Call::Close],
        &[Call::Close, Call::Line(a), Call::Close, Call::Close],
        &[
            Call::Move(a),
            Call::Line(b),
            Call::Close,
            Call::Line(b),
            Call::Close,
        ],
        &[
            Call::Move(a),
            Call::Close,
            Call::Conic(b, p(9.0, 9.0), 2.0),
            Call::Close,
        ],
        &[
            Call::Move(a),
            Call::Move(b),
            Call::Close,
            Call::Quad(a, b),
            Call::Move(a),
            Call::Close,
        ],
        &[
            Call::Cubic(a, b, a),
            Call::Close,
            Call::Move(b),
            Call::Line(a),
            Call::Close,
        ],
    ];
    for calls in lists {
        list.fitted(calls);
        list.list(0, 0, calls);
        list.list(4096, 16384, calls);
    }
}

fn random_lists(list: &mut List) {
    list.heading("calls of all kinds");
    for _ in 0..80 {
        let verbs = list.random.below(90) as usize;
        let floats = list.random.below(280) as usize;
        let calls: Vec<Call> = (0..12).map(|_| list.call()).collect();
        list.list(verbs, floats, &calls);
        list.line("box".to_string());
        let at = [list.random.below(8), list.random.below(12)];
        list.line(format!("cursor {} {}", at[0], at[1]));
    }
    // until both buffers are full
    list.line("buffers 4096 16384".to_string());
    for _ in 0..160 {
        let call = list.call();
        list.line(call_words(&call));
    }
    list.line("box".to_string());
}

pub fn record_words(verbs: u64, points: u64, start: Vec2, pen: Vec2) -> String {
    let places = format!("{} {}", point_words(start), point_words(pen));
    format!("record {verbs} {points} {places}")
}

/// Each part of cause 1, counts that suit the buffers, and a pen that means nothing.
fn records(list: &mut List) {
    list.heading("records set by hand");
    let (nan, a) = (p(f32::NAN, f32::NAN), p(7.0, -2.0));
    let most = u64::MAX;
    let counts = [
        [0, 0],
        [9, 0],
        [8, 8],
        [8, 9],
        [0, 3],
        [0, 1],
        [3, 0],
        [4, 4],
        [8, 0],
        [1, 8],
        [most, 0],
        [1, most],
        [0, most],
        [1, 1 << 63],
        [1, (1 << 63) + 1],
        [most, most],
    ];
    for [verbs, points] in counts {
        for (start, pen) in [(a, nan), (nan, a), (p(0.0, -0.0), a)] {
            for call in 0..6 {
                list.line("buffers 8 17".to_string());
                list.line("cubic 3f800000 40000000 40400000 40800000 40a00000 nan".to_string());
                list.line(record_words(verbs, points, start, pen));
                let call = match call {
                    0 => Call::Move(p(1.0, 2.0)),
                    1 => Call::Line(p(1.0, 2.0)),
                    2 => Call::Quad(p(1.0, 2.0), p(3.0, 4.0)),
                    3 => Call::Conic(p(1.0, 2.0), p(3.0, 4.0), 1.0),
                    4 => Call::Cubic(p(1.0, 2.0), p(3.0, 4.0), p(5.0, 6.0)),
                    _ => Call::Close,
                };
                list.line(call_words(&call));
                list.line("box".to_string());
                list.line("cursor 0 0".to_string());
            }
        }
    }
    // a NaN pen at counts 0, and behind a verb
    for counts in [0, 1] {
        for w in [0.5, 1.0, 3.0, 0.0] {
            list.line("buffers 80 320".to_string());
            list.line(record_words(counts, counts, a, nan));
            list.line(call_words(&Call::Conic(p(1.0, 2.0), p(3.0, 4.0), w)));
            list.line(call_words(&Call::Close));
            list.line(call_words(&Call::Conic(p(1.0, 2.0), p(3.0, 4.0), w)));
        }
    }
}

fn cursors(list: &mut List, verbs: u64, points: u64) {
    let most = u64::MAX;
    let near = [
        0,
        1,
        verbs.wrapping_sub(1),
        verbs,
        verbs.wrapping_add(1),
        most,
        most / 2,
    ];
    let held = [
        0,
        1,
        points.wrapping_sub(1),
        points,
        points.wrapping_add(1),
        most,
        most - 2,
    ];
    for _ in 0..5 {
        let v = near[list.random.below(7) as usize];
        let p = held[list.random.below(7) as usize];
        list.line(format!("cursor {v} {p}"));
        let any = [list.random.below(9), list.random.below(12)];
        list.line(format!("cursor {} {}", any[0], any[1]));
    }
}

fn damaged(list: &mut List) {
    list.heading("streams by hand: verbs over 4, points missing, counts over the buffers");
    for i in 0..220u64 {
        let verbs = list.random.below(10);
        let bytes: Vec<u8> = (0..verbs)
            .map(|_| match list.random.below(12) {
                0 if i % 2 == 0 => 5,
                1 if i % 2 == 0 => list.random.bits() as u8,
                _ => list.random.below(5) as u8,
            })
            .collect();
        let needed: u64 = bytes
            .iter()
            .map(|v| [1, 1, 2, 3, 0].get(*v as usize).unwrap_or(&0))
            .sum();
        let floats = match list.random.below(4) {
            0 => list.random.below(30),
            1 => 2 * needed + 1,
            _ => 2 * needed,
        };
        let counts = match list.random.below(8) {
            0 => [verbs + 1, needed],
            1 => [verbs, floats / 2 + 1],
            2 => [
                list.random.bits() >> list.random.below(64),
                list.random.bits() >> list.random.below(64),
            ],
            3 => [0, needed],
            4 => [verbs.saturating_sub(1), needed],
            _ => [verbs, (floats / 2).min(needed)],
        };
        list.line(format!("raw {} {}", counts[0], counts[1]));
        if verbs > 0 {
            let (front, back) = bytes.split_at(bytes.len() / 2);
            let hex = |b: &[u8]| b.iter().map(|b| format!("{b:02x}")).collect::<String>();
            list.line(format!("verbs {} {}", hex(front), hex(back)));
        }
        for part in (0..floats).collect::<Vec<_>>().chunks(9) {
            let words: Vec<String> = part.iter().map(|_| f32_word(list.coordinate())).collect();
            list.line(format!("floats {}", words.join(" ")));
        }
        list.line("box".to_string());
        cursors(list, counts[0], counts[1]);
    }
    zeros(list);
}

/// The box of equal values, zeros of both signs, and points that are not finite.
fn zeros(list: &mut List) {
    let streams = [
        "floats 00000000 80000000 80000000 00000000",
        "floats 80000000 80000000 00000000 00000000",
        "floats nan 00000000 3f800000 7f800000",
        "floats nan 00000000 3f800000 bf800000",
        "floats 7f7fffff ff7fffff ff7fffff 7f7fffff",
    ];
    for text in streams {
        list.line("raw 2 2".to_string());
        list.line("verbs 00 01".to_string());
        list.line(text.to_string());
        list.line("box".to_string());
    }
    list.line("raw 0 0".to_string());
    list.line("box".to_string());
    list.line("cursor 0 0".to_string());
}

fn containment(list: &mut List) {
    list.heading("containment");
    let contains = |f: &shapes::Shape, q: Vec2| {
        format!("contains {} {}", f.map(f32_word).join(" "), point_words(q))
    };
    for f in shapes::shapes() {
        for q in shapes::points(&f, &mut list.random) {
            list.line(contains(&f, q));
        }
    }
    list.heading("shapes that are refused");
    for f in shapes::refused_shapes() {
        list.line(contains(&f, p(1.0, 2.0)));
    }
}

fn spacing(list: &mut List) {
    list.heading("unusual spacing, comments, empty lines");
    for text in [
        "",
        "   ",
        "  buffers   0003    9   # three verbs",
        "move 3f800000   nan#a comment",
        "\u{20}line 7fc00001 ffffffff ",
        "close#",
        "raw 18446744073709551615 0",
        "# a comment of one line",
    ] {
        list.line(text.to_string());
    }
}

fn empty(seed: u64) -> List {
    List {
        lines: Vec::new(),
        random: Random(seed),
    }
}

/// The last line but one is a bad one.
pub fn lines() -> Vec<String> {
    let mut list = empty(0x7ea1);
    examples(&mut list);
    fits(&mut list);
    conics(&mut list);
    closes(&mut list);
    random_lists(&mut list);
    records(&mut list);
    damaged(&mut list);
    spacing(&mut list);
    containment(&mut list);
    outline_lists::add_to(&mut list);
    kept_lists::add_to(&mut list);
    list.heading("a bad line is the last");
    list.line("buffers 4097 0".to_string());
    list.line("contains".to_string());
    list.lines
}
