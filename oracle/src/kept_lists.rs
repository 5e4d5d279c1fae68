//! What a building call leaves alone, for the program `replay_paths`: the same text at every run.
//!
//! The buffers are filled first. After each call a record that holds all of them is set by hand, and
//! segments are read right behind what the call has written, or where it was refused, right behind
//! what was held.

use crate::path_lists::{call_words, p, record_words, room, List};
use crate::shapes;
use crate::stream::{Call, Record, Stream};

/// The pen and the start of every record set by hand.
const PEN: [f32; 2] = [3.0, 4.0];

/// Verbs and points.
type Need = (usize, usize);

/// What the calls need on an empty builder.
fn need_of(calls: &[Call]) -> Need {
    let (verbs, floats) = room(calls);
    (verbs, floats / 2)
}

/// Buffers that were filled, and an odd float; the record that holds all of it.
struct Filled<'a> {
    list: &'a mut List,
    stream: Stream,
    full: Record,
}

impl Filled<'_> {
    /// A move, then cubics, lines and quads in turn, all of whose floats differ; and room that stays
    /// empty.
    fn new(list: &mut List, calls: usize, spare: Need) -> Filled<'_> {
        let mut floats = (0..).map(|n| n as f32 + 0.5);
        let mut point = || p(floats.next().unwrap(), -floats.next().unwrap());
        let calls: Vec<Call> = (0..calls)
            .map(|n| match n % 3 {
                _ if n == 0 => Call::Move(point()),
                1 => Call::Cubic(point(), point(), point()),
                2 => Call::Line(point()),
                _ => Call::Quad(point(), point()),
            })
            .collect();
        let need = need_of(&calls);
        let (verbs, floats) = (need.0 + spare.0, 2 * (need.1 + spare.1) + 1);
        let mut stream = Stream::fresh(verbs, floats);
        for call in &calls {
            stream.build(*call).unwrap();
        }
        list.list(verbs, floats, &calls);
        let full = stream.record;
        Filled { list, stream, full }
    }

    fn record(&mut self, verbs: usize, points: usize) {
        let pen = p(PEN[0], PEN[1]);
        self.stream.record = Record {
            verbs,
            points,
            start: pen,
            pen,
        };
        let words = record_words(verbs as u64, points as u64, pen, pen);
        self.list.line(words);
    }

    fn call(&mut self, call: Call) {
        let _ = self.stream.build(call);
        self.list.line(call_words(&call));
    }

    /// Reads behind the held part: by the last verb that takes all points which stand there, three
    /// at most, and by the verb that stands there. The number of a line, a quad or a cubic is how
    /// many points it takes.
    fn behind(&mut self) {
        let Record { verbs, points, .. } = self.stream.record;
        self.record(self.full.verbs, self.full.points);
        let left = self.full.points - points;
        let takes_all = |v: &u8| left > 0 && usize::from(*v) == left.min(3);
        let widest = self.stream.verbs.iter().rposition(takes_all);
        let next = (verbs < self.full.verbs).then_some(verbs);
        let mut read: Vec<usize> = widest.into_iter().chain(next).collect();
        read.dedup();
        for verb in read {
            self.list.line(format!("cursor {verb} {points}"));
        }
    }

    /// The call after this record.
    fn after(&mut self, verbs: usize, points: usize, call: Call) {
        self.record(verbs, points);
        self.call(call);
        self.behind();
    }

    /// The call where a verb is lacking, and where a point is.
    fn refused(&mut self, call: Call) {
        let (verbs, points) = need_of(&[Call::Move(p(PEN[0], PEN[1])), call]);
        let (verbs, points) = (verbs - 1, points - 1);
        let (v, p) = (self.full.verbs - verbs, self.full.points - points);
        self.after(v + 1, p.min(self.full.points - 3), call);
        if points > 0 {
            self.after(v, p + 1, call);
        }
    }
}

pub fn add_to(list: &mut List) {
    list.heading(
        "what a call leaves alone: read behind its part, and of a refused one behind what was held",
    );
    let conic = |size, weight| Call::Conic(p(size, 0.0), p(size, size), weight);
    let outline = |radius| Call::Outline(shapes::uniform([0.0; 2], [100.0, 60.0], [radius; 2]));
    // the conics are a line and from 1 to 32 quads
    let calls = [
        Call::Close,
        Call::Move(p(1.0, 2.0)),
        Call::Line(p(1.0, 2.0)),
        conic(10.0, 0.0),
        conic(10.0, 1.0),
        Call::Quad(p(1.0, 2.0), p(5.0, -1.0)),
        Call::Cubic(p(1.0, 2.0), p(3.0, 4.0), p(5.0, 6.0)),
        conic(10.0, 1.01),
        conic(100.0, 1.2),
        conic(100.0, 1.5),
        conic(10.0, 1.5),
        conic(10.0, 3.0),
        outline(0.0),
        conic(10.0, 50.0),
        outline(20.0),
    ];
    let mut filled = Filled::new(list, 91, (0, 0));
    for call in calls {
        filled.after(0, 0, call);
        filled.after(3, 5, call);
    }
    for call in calls {
        filled.refused(call);
    }
    // with room for the largest outline, where no need is counted
    let mut filled = Filled::new(list, 16, (1035, 2074));
    filled.after(0, 0, outline(0.0));
    filled.after(3, 5, outline(0.0));
}
