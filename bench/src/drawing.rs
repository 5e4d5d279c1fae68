//! ns per call of what makes shapes, asks them and builds paths: the library, the original on the
//! written-out elementary functions and the original on the platform's, on the same inputs, taken in
//! turns in one run, many rounds each. Every function stands behind a call. bench/README.md says what
//! each row is.

use std::hint::black_box;
use std::time::Instant;

use oracle::panel_files;
use oracle::random::Random;
use oracle::vec2::Vec2;

use crate::library::{self, Path, Shape, NOWHERE, RESULTS};
use crate::others::{native_shape, shape_floats, written_path, written_shape};
use crate::speed::row;

const ROUNDS: usize = 200;
const FILE_ROUNDS: usize = 40;
const SHAPES: usize = 256;
const POINTS: usize = 16;
/// Calls of a path before it is begun anew.
const LENGTH: usize = 64;
const PATHS: usize = 16;

/// One round of each in turn, again and again: the time of each over `calls`.
fn rounds<const N: usize>(calls: usize, bodies: [&mut dyn FnMut(); N]) -> Vec<[f64; N]> {
    rounds_of(ROUNDS, calls, bodies)
}

fn rounds_of<const N: usize>(
    rounds: usize,
    calls: usize,
    mut bodies: [&mut dyn FnMut(); N],
) -> Vec<[f64; N]> {
    let mut round = || {
        bodies.each_mut().map(|body| {
            let start = Instant::now();
            body();
            start.elapsed().as_nanos() as f64 / calls as f64
        })
    };
    (0..rounds).map(|_| round()).collect()
}

/// min, max, and the radii top left, top right, bottom left, bottom right.
type Sizes = [f32; 12];

fn box_of(r: &mut Random, square: bool) -> [f64; 4] {
    let (x, y) = (r.within(0.0, 1000.0), r.within(0.0, 1000.0));
    let width = r.within(20.0, 400.0);
    let height = if square { width } else { r.within(20.0, 400.0) };
    // whole numbers, so that a square is one after rounding too
    [
        x.floor(),
        y.floor(),
        x.floor() + width.floor(),
        y.floor() + height.floor(),
    ]
}

/// A box with these radii, each a part of the lesser half side.
fn sizes(r: &mut Random, square: bool, parts: [f64; 4]) -> Sizes {
    let [x0, y0, x1, y1] = box_of(r, square);
    let half = (x1 - x0).min(y1 - y0) / 2.0;
    let [tl, tr, bl, br] = parts.map(|part| part * half);
    [x0, y0, x1, y1, tl, tl, tr, tr, bl, bl, br, br].map(|v| v as f32)
}

fn part(r: &mut Random) -> f64 {
    r.within(0.1, 0.9)
}

const KINDS: [(&str, fn(&mut Random) -> Sizes); 4] = [
    ("one radius", |r| {
        let p = part(r);
        sizes(r, false, [p; 4])
    }),
    ("square box", |r| {
        let p = part(r);
        sizes(r, true, [p; 4])
    }),
    ("two radii", |r| {
        let (p, q) = (part(r), part(r));
        sizes(r, false, [p, p, q, q])
    }),
    ("four radii", |r| {
        let parts = [(); 4].map(|()| part(r));
        sizes(r, false, parts)
    }),
];

/// The library's shape.
fn library_shape(s: &Sizes) -> Shape {
    let mut floats = [0.0; 89];
    assert_eq!(
        library::shape(s, &mut floats),
        0,
        "a shape within the limits"
    );
    floats
}

fn bits(floats: &[f32]) -> impl Iterator<Item = u32> + '_ {
    floats.iter().map(|x| x.to_bits())
}

fn new(kind: &str, make: fn(&mut Random) -> Sizes) {
    let mut random = Random(7);
    let inputs: Vec<Sizes> = (0..SHAPES).map(|_| make(&mut random)).collect();
    for s in &inputs {
        let theirs = shape_floats(&written_shape::new(s));
        assert!(
            bits(&library_shape(s)).eq(bits(&theirs)),
            "library and oracle differ"
        );
    }
    let mut floats = [0.0; 89];
    let times = rounds(
        SHAPES,
        [
            &mut || {
                for s in &inputs {
                    library::shape(s, &mut floats);
                    black_box(&floats);
                }
            },
            &mut || {
                for s in &inputs {
                    black_box(&written_shape::new(s));
                }
            },
            &mut || {
                for s in &inputs {
                    black_box(&native_shape::new(s));
                }
            },
        ],
    );
    row("new", kind, &times, "0.8");
}

/// A point in the middle of the box, near one of its corners, or beyond it.
const PLACES: [(&str, fn(&mut Random, &Sizes) -> (f32, f32)); 3] = [
    ("inside", |r, s| {
        (
            between(r, s[0], s[2], 0.3, 0.7),
            between(r, s[1], s[3], 0.3, 0.7),
        )
    }),
    ("corner", |r, s| {
        (near(r, s[0], s[2], 0.0, 0.2), near(r, s[1], s[3], 0.0, 0.2))
    }),
    ("outside", |r, s| {
        (
            near(r, s[0], s[2], -0.3, -0.05),
            near(r, s[1], s[3], -0.3, -0.05),
        )
    }),
];

fn between(r: &mut Random, low: f32, high: f32, from: f64, to: f64) -> f32 {
    (low as f64 + (high - low) as f64 * r.within(from, to)) as f32
}

/// The same from either end.
fn near(r: &mut Random, low: f32, high: f32, from: f64, to: f64) -> f32 {
    if r.below(2) == 0 {
        between(r, low, high, from, to)
    } else {
        between(r, high, low, from, to)
    }
}

fn contains(kind: &str, make: fn(&mut Random) -> Sizes) {
    let mut random = Random(8);
    let inputs: Vec<Sizes> = (0..SHAPES).map(|_| make(&mut random)).collect();
    let lent: Vec<Shape> = inputs.iter().map(library_shape).collect();
    let written: Vec<_> = inputs.iter().map(written_shape::new).collect();
    let native: Vec<_> = inputs.iter().map(native_shape::new).collect();
    for (place, choose) in PLACES {
        let points: Vec<(f32, f32)> = (0..SHAPES * POINTS)
            .map(|k| choose(&mut random, &inputs[k / POINTS]))
            .collect();
        for (k, (x, y)) in points.iter().enumerate() {
            let theirs = written_shape::contains(&written[k / POINTS], *x, *y);
            let ours = library::contains(&lent[k / POINTS], *x, *y);
            assert_eq!(ours, theirs as u32, "library and oracle differ");
        }
        let (mut a, mut b, mut c) = (0u64, 0u64, 0u64);
        let times = rounds(
            points.len(),
            [
                &mut || {
                    a = 0;
                    for (k, (x, y)) in points.iter().enumerate() {
                        a += library::contains(&lent[k / POINTS], *x, *y) as u64;
                    }
                },
                &mut || {
                    b = 0;
                    for (k, (x, y)) in points.iter().enumerate() {
                        b += written_shape::contains(&written[k / POINTS], *x, *y) as u64;
                    }
                },
                &mut || {
                    c = 0;
                    for (k, (x, y)) in points.iter().enumerate() {
                        c += native_shape::contains(&native[k / POINTS], *x, *y) as u64;
                    }
                },
            ],
        );
        black_box((a, b, c));
        let name = format!("{kind}, {place}");
        row("contains", &name, &times, "1.0");
    }
}

/// The usual button, 100 by 60 with radii of 20, at the origin.
const BUTTON: Sizes = [
    0.0, 0.0, 100.0, 60.0, 20.0, 20.0, 20.0, 20.0, 20.0, 20.0, 20.0, 20.0,
];

/// ns per outline. `counted` is the library in buffers with room for the outline and not for the largest one,
/// so that the need is counted first; `outline_need` is the count alone, beside the same outlines of the Rust.
fn outline(kind: &str, inputs: &[Sizes]) {
    let lent: Vec<Shape> = inputs.iter().map(library_shape).collect();
    let written: Vec<_> = inputs.iter().map(written_shape::new).collect();
    let native: Vec<_> = inputs.iter().map(native_shape::new).collect();
    let mut path = Path::with_room(1035, 2074);
    let mut tight = Path::with_room(1034, 2073);
    let mut need = [0; 2];
    let mut builder = written_shape::with_room(1035, 2074);
    let mut other = native_shape::with_room(1035, 2074);
    for (ours, theirs) in lent.iter().zip(&written) {
        path.clear();
        assert_eq!(path.lent().add(ours), 0, "room for the largest outline");
        written_shape::outline(theirs, &mut builder);
        assert!(
            written_path::same(&builder, &path),
            "library and oracle differ"
        );
    }
    let times = rounds(
        inputs.len(),
        [
            &mut || {
                for s in &lent {
                    path.clear();
                    path.lent().add(s);
                    black_box(&path);
                }
            },
            &mut || {
                for s in &written {
                    written_shape::outline(s, &mut builder);
                    black_box(&builder);
                }
            },
            &mut || {
                for s in &native {
                    native_shape::outline(s, &mut other);
                    black_box(&other);
                }
            },
            &mut || {
                for s in &lent {
                    tight.clear();
                    tight.lent().add(s);
                    black_box(&tight);
                }
            },
            &mut || {
                for s in &lent {
                    library::outline_need(s, &mut need);
                    black_box(&need);
                }
            },
        ],
    );
    let beside = |k: usize| -> Vec<[f64; 3]> { times.iter().map(|t| [t[k], t[1], t[2]]).collect() };
    row("outline", kind, &beside(0), "0.6; 1.0 to std");
    row("outline, need counted", kind, &beside(3), "");
    row("outline_need", kind, &beside(4), "");
}

fn outlines() {
    outline("usual button", &[BUTTON; SHAPES]);
    for (kind, make) in KINDS {
        let mut random = Random(10);
        let inputs: Vec<Sizes> = (0..SHAPES).map(|_| make(&mut random)).collect();
        outline(kind, &inputs);
    }
}

/// A conic's control, target and weight.
type Conic = (Vec2, Vec2, f32);

fn vec(r: &mut Random) -> Vec2 {
    Vec2::new(r.within(0.0, 1000.0) as f32, r.within(0.0, 1000.0) as f32)
}

/// A conic from the pen that gives so many quads.
fn conic(r: &mut Random, pen: Vec2, quads: usize) -> Conic {
    loop {
        let weight = match quads {
            1 => r.within(0.9, 1.1),
            _ => r.scaled(0.05, 1000.0),
        };
        let c = (vec(r), vec(r), weight as f32);
        if written_path::quads(pen, c) == quads {
            return c;
        }
    }
}

/// Paths, each from a point of its own.
fn paths<T>(
    make: impl Fn(&mut Random, Vec2) -> T,
    target: impl Fn(&T) -> Vec2,
) -> Vec<(Vec2, Vec<T>)> {
    let mut random = Random(9);
    (0..PATHS)
        .map(|_| {
            let start = vec(&mut random);
            let mut pen = start;
            let calls = (0..LENGTH)
                .map(|_| {
                    let call = make(&mut random, pen);
                    pen = target(&call);
                    call
                })
                .collect();
            (start, calls)
        })
        .collect()
}

/// ns per call; the move that begins a path is spread over its calls.
fn build<T>(
    how: &str,
    name: &str,
    inputs: &[(Vec2, Vec<T>)],
    ours: impl Fn(&mut Path, &T),
    theirs: impl Fn(&mut written_path::PathBuilder, &T),
) {
    let (verbs, points) = (1 + 64 * LENGTH, 1 + 128 * LENGTH);
    let mut path = Path::with_room(verbs, points);
    let mut builder = written_path::with_room(verbs, points);
    let times = rounds(
        PATHS * LENGTH,
        [
            &mut || {
                for (start, calls) in inputs {
                    path.clear();
                    path.lent().move_to(start.x, start.y);
                    calls.iter().for_each(|c| ours(&mut path, c));
                    black_box(&path);
                }
            },
            &mut || {
                for (start, calls) in inputs {
                    written_path::clear(&mut builder);
                    written_path::move_to(&mut builder, *start);
                    calls.iter().for_each(|c| theirs(&mut builder, c));
                    black_box(&builder);
                }
            },
        ],
    );
    assert!(
        written_path::same(&builder, &path),
        "library and oracle differ"
    );
    // of the functions that were written out the builder calls none: the two builds of the Rust are one
    let times: Vec<[f64; 3]> = times
        .iter()
        .map(|[ours, rust]| [*ours, *rust, *rust])
        .collect();
    row(name, how, &times, "1.0");
}

fn lines() {
    build(
        "",
        "line_to",
        &paths(|r, _| vec(r), |to| *to),
        |path, p| {
            path.lent().line_to(p.x, p.y);
        },
        |builder, p| written_path::line_to(builder, *p),
    );
}

fn conics(quads: usize) {
    build(
        &format!("{quads} quads"),
        "conic_to",
        &paths(|r, pen| conic(r, pen, quads), |c| c.1),
        |path, (ctrl, to, weight)| {
            path.lent().conic_to(ctrl.x, ctrl.y, to.x, to.y, *weight);
        },
        |builder, c| written_path::conic_to(builder, *c),
    );
}

/// The shapes of a panel file and as many touches in the order in which a film is scanned.
fn by_rows(file: &[u8]) -> Vec<u8> {
    let mut rest = file;
    let mut made = Vec::new();
    while let [low, high, ..] = *rest {
        let (record, next) = rest.split_at(4 + u16::from_le_bytes([low, high]) as usize);
        if record.len() == 52 {
            made.extend(record);
        }
        rest = next;
    }
    for k in 0..42 * 65 {
        let (x, y) = ((k % 65) as f32, (k / 65) as f32);
        made.extend([8, 0, 2, 0]);
        for v in [x * 1510.0 / 64.0 - 5.0, y * 1060.0 / 41.0 - 5.0] {
            made.extend(v.to_le_bytes());
        }
    }
    made
}

/// ns per touch, where each touch of a file goes: the records read and the shapes made in the same time.
fn all_touches(how: &str, file: &[u8]) {
    let mut results = [0; RESULTS];
    let mut count = [0];
    assert_eq!(library::touch_all(file, &mut results, &mut count), 0);
    let (mut ours, mut theirs, mut native) = (0, Vec::new(), Vec::new());
    let times = rounds_of(
        FILE_ROUNDS,
        count[0] as usize,
        [
            &mut || {
                ours = library::touch_all(file, &mut results, &mut count);
                black_box(&results);
            },
            &mut || theirs = written_shape::all_touches(file),
            &mut || native = native_shape::all_touches(file),
        ],
    );
    let theirs = theirs.iter().map(|p| p.map_or(NOWHERE, |i| i as u32));
    let equal = ours == 0 && theirs.eq(results[..count[0] as usize].iter().copied());
    assert!(equal, "library and oracle differ");
    black_box(native);
    row("all touches", how, &times, "");
}

fn touches() {
    let anywhere = panel_files::largest();
    all_touches("anywhere", &anywhere);
    all_touches("by rows", &by_rows(&anywhere));
    all_touches("shapes overlap", &panel_files::overlapping());
}

pub fn run(names: &[&str]) {
    let asked = |name: &str| names.is_empty() || names.contains(&name);
    for (kind, make) in KINDS {
        if asked("new") {
            new(kind, make);
        }
    }
    for (kind, make) in KINDS {
        if asked("contains") && kind != "two radii" {
            contains(kind, make);
        }
    }
    if asked("outline") {
        outlines();
    }
    if asked("line_to") {
        lines();
    }
    if asked("conic_to") {
        [1, 8, 32].into_iter().for_each(conics);
    }
    if asked("touches") {
        touches();
    }
}
