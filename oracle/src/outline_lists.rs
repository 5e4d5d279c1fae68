//! Outlines for the program `replay_paths`: the same text at every run.

use crate::path_lists::{call_words, p, record_words, room, List};
use crate::shapes::{self, Shape};
use crate::stream::{Call, Stream};

fn square() -> Call {
    Call::Outline(shapes::uniform([0.0; 2], [10.0; 2], [0.0; 2]))
}

/// Sides of some million times the radius, of which the outline has points that are NaN.
fn broken_circles(list: &mut List) -> Vec<Shape> {
    let mut found = vec![shapes::uniform([0.0; 2], [8666.0; 2], [0.0011; 2])];
    while found.len() < 8 {
        let mut within = |lo: f64, hi: f64| list.random.within(lo, hi) as f32;
        let min = [0, 1].map(|_| within(-12000.0, 0.0));
        let max = [0, 1].map(|_| within(0.0, 12000.0));
        let mut radii = [0; 4].map(|_| [within(0.001, 0.005); 2]);
        if found.len() < 5 {
            radii = [radii[0]; 4];
        }
        let f = shapes::cornered(min, max, radii);
        let mut s = Stream::fresh(1035, 4148);
        if s.build(Call::Outline(f)).is_ok() && s.floats.iter().any(|x| x.is_nan()) {
            found.push(f);
        }
    }
    found
}

/// What stands in front of an outline: nothing, or a call or two of any kind.
fn front(list: &mut List, i: usize) -> Vec<Call> {
    match i % 8 {
        0 | 1 | 2 | 3 => vec![],
        4 => vec![Call::Move(list.point())],
        5 => vec![Call::Line(list.point()), Call::Close],
        6 => vec![list.call(), list.call()],
        _ => vec![square()],
    }
}

/// Each shape one verb short, one point short and in exactly its length; then two calls from the
/// pen that the outline leaves, which have no room there.
fn fits(list: &mut List) {
    list.heading("outlines: one verb short, one point short, exact buffers");
    let mut shapes = shapes::shapes();
    shapes.extend(broken_circles(list));
    for (i, f) in shapes.into_iter().enumerate() {
        // a part of them, and of the long ones fewer, since every segment is written out
        let long = room(&[Call::Outline(f)]).0 > 140;
        if i % 4 == 0 || long && i % 5 != 0 {
            continue;
        }
        let mut calls = front(list, i);
        calls.push(Call::Outline(f));
        let (verbs, floats) = room(&calls);
        list.list(verbs - 1, floats, &calls);
        list.list(verbs, floats - 1, &calls);
        if i % 5 == 1 {
            calls.extend([Call::Close, Call::Line(p(1.0, 2.0))]);
        }
        list.list(verbs, floats, &calls);
        if i % 5 == 2 {
            list.line("box".to_string());
        }
    }
}

/// Outlines among the six calls, in buffers that hold all of them or some.
fn mixed(list: &mut List) {
    list.heading("outlines among other calls");
    let shapes = shapes::shapes();
    for i in 0..48 {
        let calls: Vec<Call> = (0..10)
            .map(|k| match (i + k) % 3 {
                0 if k % 2 == 0 => square(),
                0 => Call::Outline(shapes[list.random.below(shapes.len() as u64) as usize]),
                _ => list.call(),
            })
            .collect();
        let (verbs, floats) = room(&calls);
        match i % 6 {
            0 => list.list(verbs, floats, &calls),
            _ => list.list(verbs * 2 / 5, floats * (2 + i % 2) / 5, &calls),
        }
        list.line("box".to_string());
    }
}

/// Each part of cause 1, and the last counts that leave room for a square's 11 verbs and 10 points.
fn records(list: &mut List) {
    list.heading("outlines behind records set by hand");
    let nan = p(f32::NAN, f32::NAN);
    let most = u64::MAX;
    let counts = [
        [0, 0],
        [29, 40],
        [30, 40],
        [29, 41],
        [40, 50],
        [41, 0],
        [40, 51],
        [0, 1],
        [1, 0],
        [most, 0],
        [1, most],
        [1, 1 << 63],
        [most, most],
    ];
    for [verbs, points] in counts {
        for pen in [nan, p(7.0, -2.0)] {
            list.line("buffers 40 101".to_string());
            list.line(record_words(verbs, points, nan, pen));
            list.line(call_words(&square()));
        }
    }
}

/// Refused shapes, before a good record and a bad one.
fn refused(list: &mut List) {
    list.heading("outlines of shapes that are refused");
    for (i, f) in shapes::refused_shapes().into_iter().enumerate() {
        list.line("buffers 2 2".to_string());
        if i % 2 == 0 {
            list.line(record_words(0, 1, p(0.0, 0.0), p(0.0, 0.0)));
        }
        list.line(call_words(&Call::Outline(f)));
    }
}

pub fn add_to(list: &mut List) {
    fits(list);
    mixed(list);
    records(list);
    refused(list);
}
