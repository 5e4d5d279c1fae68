//! Lists of building calls in buffers of any length, and the reading of streams.

use oracle::stream::{Call, Record, Stream};
use oracle::vec2::Vec2;
use oracle::written::path::access;

use super::{all_same, hex, kept, number, refusal, same, Inputs, Tally};
use crate::library::{self, Lent, Path, Shape};

fn stream_words(path: &Path) -> String {
    format!(
        "counts {:?} places {} verbs {:02x?} floats {}",
        path.counts,
        hex(&path.places),
        path.verbs,
        hex(&path.floats)
    )
}

fn call_words(call: &Call) -> String {
    let p = |list: &[Vec2]| hex(&list.iter().flat_map(|p| [p.x, p.y]).collect::<Vec<_>>());
    match call {
        Call::Move(a) => format!("move {}", p(&[*a])),
        Call::Line(a) => format!("line {}", p(&[*a])),
        Call::Quad(a, b) => format!("quad {}", p(&[*a, *b])),
        Call::Conic(a, b, w) => format!("conic {} {}", p(&[*a, *b]), hex(&[*w])),
        Call::Cubic(a, b, c) => format!("cubic {}", p(&[*a, *b, *c])),
        Call::Close => "close".to_string(),
        Call::Outline(f) => format!("outline {}", hex(f)),
    }
}

/// The library's answer to a call; a shape that is refused is not drawn.
fn build(path: &mut Lent, call: &Call) -> u32 {
    match *call {
        Call::Move(a) => path.move_to(a.x, a.y),
        Call::Line(a) => path.line_to(a.x, a.y),
        Call::Quad(a, b) => path.quad_to(a.x, a.y, b.x, b.y),
        Call::Conic(a, b, w) => path.conic_to(a.x, a.y, b.x, b.y, w),
        Call::Cubic(a, b, c) => path.cubic_to(a.x, a.y, b.x, b.y, c.x, c.y),
        Call::Close => path.close(),
        Call::Outline(sizes) => {
            let mut shape: Shape = [0.0; 89];
            match library::shape(&sizes, &mut shape) {
                0 => path.add(&shape),
                refused => refused,
            }
        }
    }
}

fn places(record: &Record) -> [f32; 4] {
    [record.start.x, record.start.y, record.pen.x, record.pen.y]
}

/// Whether everything lent is, bit for bit, what it was.
fn untouched(now: &Path, before: &Path) -> bool {
    now.counts == before.counts
        && kept(&now.places, &before.places)
        && now.verbs == before.verbs
        && kept(&now.floats, &before.floats)
}

/// Whether an accepted call left the oracle's record and buffers, and every float but those that it
/// wrote as it was.
fn accepted(now: &Path, before: &Path, stream: &Stream, word: u64) -> bool {
    let record = &stream.record;
    let (from, to) = (2 * before.counts[1] as usize, 2 * record.points);
    now.counts == [record.verbs as u64, record.points as u64, word]
        && all_same(&now.places, &places(record))
        && now.verbs == stream.verbs
        && all_same(&now.floats, &stream.floats)
        && kept(&now.floats[..from], &before.floats[..from])
        && kept(&now.floats[to..], &before.floats[to..])
        && now.verbs[record.verbs..] == before.verbs[record.verbs..]
}

/// Whether the need asked beforehand is what the call added, or what there was no room for.
fn needed(need: [u64; 2], answer: u32, now: &Path, before: &Path) -> bool {
    let [verbs, points, _] = before.counts;
    let after = [verbs + need[0], points + need[1]];
    match answer {
        0 => now.counts[..2] == after,
        _ => after[0] > now.verbs.len() as u64 || after[1] > now.floats.len() as u64 / 2,
    }
}

/// One call to both.
fn call(path: &mut Path, stream: &mut Stream, call: &Call, tally: &mut Tally) {
    let before = path.clone();
    let input = || format!("{} on {}", call_words(call), stream_words(&before));
    let mut need = [u64::MAX; 2];
    if let Call::Conic(a, b, w) = *call {
        library::conic_need(
            &before.counts,
            &before.places,
            [a.x, a.y, b.x, b.y, w],
            &mut need,
        );
    }
    let answer = build(&mut path.lent(), call);
    let theirs = stream.build(*call);
    let equal = answer == number(&theirs)
        && match theirs {
            Ok(word) => accepted(path, &before, stream, word.unwrap_or(0)),
            Err(_) => untouched(path, &before),
        };
    let (name, refused) = match call {
        Call::Outline(_) => ("outline calls", "outline calls refused"),
        Call::Conic(..) => ("conic calls", "conic calls refused"),
        _ => ("other calls", "other calls refused"),
    };
    tally.case(name, equal, input);
    if answer != 0 {
        tally.count(refused, 1);
    }
    if matches!(call, Call::Conic(..)) && answer != 1 {
        tally.case(
            "needs of conics",
            needed(need, answer, path, &before),
            input,
        );
    }
}

/// Buffers of any content, and a record for both.
fn begin(inputs: &mut Inputs, verbs: usize, floats: usize, record: Record) -> (Path, Stream) {
    let path = Path {
        counts: [
            record.verbs as u64,
            record.points as u64,
            inputs.random.bits(),
        ],
        places: places(&record),
        verbs: (0..verbs).map(|_| inputs.below(5) as u8).collect(),
        floats: (0..floats).map(|_| inputs.any()).collect(),
    };
    let stream = Stream {
        record,
        verbs: path.verbs.clone(),
        floats: path.floats.clone(),
    };
    (path, stream)
}

/// Counts for buffers of these lengths: mostly empty, often suitable, sometimes not.
fn record(inputs: &mut Inputs, verbs: usize, floats: usize) -> Record {
    let (verbs, points) = match inputs.below(10) {
        0..=5 => (0, 0),
        6 | 7 => (inputs.below(verbs + 1), inputs.below(floats / 2 + 1)),
        8 => (inputs.below(verbs + 3), inputs.below(floats / 2 + 3)),
        _ => {
            let huge = [0, 1, usize::MAX, 1 << 63, (1 << 63) + 1, 1 << 32];
            (inputs.pick(&huge), inputs.pick(&huge))
        }
    };
    Record {
        verbs,
        points,
        start: inputs.point(),
        pen: inputs.point(),
    }
}

/// Lengths of the buffers: what the calls need from an empty record on and about it, or any.
fn lengths(inputs: &mut Inputs, calls: &[Call]) -> (usize, usize) {
    if inputs.one_in(3) {
        let most = [(12, 40), (90, 280), (400, 1600), (1200, 4400)];
        let (verbs, floats) = inputs.pick(&most);
        return (inputs.below(verbs), inputs.below(floats));
    }
    let mut roomy = Stream::fresh(8192, 32768);
    for call in calls {
        let _ = roomy.build(*call);
    }
    let about = |inputs: &mut Inputs, n: usize| (n + inputs.below(4)).saturating_sub(2);
    (
        about(inputs, roomy.record.verbs),
        about(inputs, 2 * roomy.record.points),
    )
}

/// A list of calls to both, then the stream read to its end.
pub fn list(inputs: &mut Inputs, tally: &mut Tally) {
    let count = 1 + inputs.below(12);
    let calls: Vec<Call> = (0..count).map(|_| inputs.call()).collect();
    let (verbs, floats) = lengths(inputs, &calls);
    let record = record(inputs, verbs, floats);
    let (mut path, mut stream) = begin(inputs, verbs, floats, record);
    for c in &calls {
        call(&mut path, &mut stream, c, tally);
    }
    tally.count("lists of calls", 1);
    read_all(inputs, &path, &stream, tally);
}

/// How many verbs a conic from `from` adds.
fn quads(from: Vec2, ctrl: Vec2, to: Vec2, weight: f32) -> usize {
    let mut stream = Stream::fresh(80, 320);
    let _ = stream.build(Call::Move(from));
    let _ = stream.build(Call::Conic(ctrl, to, weight));
    stream.record.verbs - 1
}

/// Conics with weights about the one from which on the oracle halves them: the library decides without
/// roots whether a conic is flat, except next to that bound.
pub fn flat_bound(inputs: &mut Inputs, tally: &mut Tally) {
    let scale = inputs.pick(&[1e-18, 1e-12, 1e-3, 1.0, 1.0, 1.0, 30.0, 1e9, 1e18]);
    let mut point = || {
        Vec2::new(
            inputs.within(-500.0, 500.0) * scale,
            inputs.within(-500.0, 500.0) * scale,
        )
    };
    let (from, ctrl, to) = (point(), point(), point());
    let far = inputs.pick(&[1e-3f32, 0.3, 3.0, 1e3]);
    let (mut flat, mut halved) = (1f32.to_bits(), far.to_bits());
    if quads(from, ctrl, to, far) == 1 {
        return;
    }
    while flat.abs_diff(halved) > 1 {
        let middle = (flat + halved) / 2;
        match quads(from, ctrl, to, f32::from_bits(middle)) {
            1 => flat = middle,
            _ => halved = middle,
        }
    }
    for bits in flat.min(halved) - 12..flat.min(halved) + 14 {
        let (mut path, mut stream) = begin(
            inputs,
            80,
            320,
            Record {
                verbs: 1,
                points: 1,
                start: from,
                pen: from,
            },
        );
        call(
            &mut path,
            &mut stream,
            &Call::Conic(ctrl, to, f32::from_bits(bits)),
            tally,
        );
        tally.count("conics at the bound of flatness", 1);
    }
}

/// One reading by both. The next cursor, while there is one.
fn read(
    inputs: &mut Inputs,
    path: &Path,
    stream: &Stream,
    at: [u64; 2],
    tally: &mut Tally,
) -> Option<[u64; 2]> {
    let before = [at[0], at[1], inputs.random.bits()];
    let mut cursor = before;
    let unread: [f32; 6] = std::array::from_fn(|_| inputs.any());
    let mut segment = unread;
    let answer = path.held().read(&mut cursor, &mut segment);
    let theirs = stream.read(at.map(|n| n as usize));
    let mut next = None;
    let (expected, points) = match &theirs {
        Err(_) => (before, vec![]),
        Ok(reading) => {
            let kind = match &reading.segment {
                Some((verb, _)) => {
                    next = Some(reading.next.map(|n| n as u64));
                    access::verb_number(*verb) as u64
                }
                None => 5,
            };
            let [verb, point] = reading.next.map(|n| n as u64);
            let points = reading.segment.as_ref().map(|s| s.1.clone());
            ([verb, point, kind], points.unwrap_or_default())
        }
    };
    let floats: Vec<f32> = points.iter().flat_map(|p| [p.x, p.y]).collect();
    let equal = answer == number(&theirs)
        && cursor == expected
        && all_same(&segment[..floats.len()], &floats)
        && kept(&segment[floats.len()..], &unread[floats.len()..]);
    tally.case("segments read", equal, || {
        format!("cursor {at:?} of {}", stream_words(path))
    });
    next
}

fn bounds(inputs: &mut Inputs, path: &Path, stream: &Stream, tally: &mut Tally) {
    let before: [f32; 4] = std::array::from_fn(|_| inputs.any());
    let (mut rect, mut place) = (before, [u64::MAX]);
    let answer = path.held().bounding_box(&mut rect, &mut place);
    let equal = match stream.bounds() {
        Ok(Some(found)) => {
            answer == 0
                && rect.into_iter().zip(found).all(|(a, b)| same(a, b))
                && place == [u64::MAX]
        }
        Ok(None) => answer == 101 && kept(&rect, &before) && place == [u64::MAX],
        Err(text) => {
            let (number, at) = refusal(&text);
            answer == number && kept(&rect, &before) && place == [at.unwrap_or(u64::MAX)]
        }
    };
    tally.case("boxes", equal, || stream_words(path));
}

/// From the first segment to the end or a refusal, the box, and cursors anywhere.
fn read_all(inputs: &mut Inputs, path: &Path, stream: &Stream, tally: &mut Tally) {
    let mut at = Some([0, 0]);
    while let Some(cursor) = at {
        at = read(inputs, path, stream, cursor, tally);
    }
    bounds(inputs, path, stream, tally);
    for _ in 0..4 {
        let [verbs, points, _] = path.counts.map(|n| n.min(1 << 20) as usize);
        let huge = [usize::MAX, 1 << 63, (1 << 63) - 1];
        let mut index = |n: usize| {
            if inputs.one_in(8) {
                inputs.pick(&huge) as u64
            } else {
                inputs.below(n + 3) as u64
            }
        };
        let cursor = [index(verbs), index(points)];
        read(inputs, path, stream, cursor, tally);
    }
}

/// Buffers made by hand, some verbs over 4, more or fewer points than the verbs take.
pub fn stream(inputs: &mut Inputs, tally: &mut Tally) {
    let verbs = inputs.below(24);
    let floats = inputs.below(80);
    let record = match inputs.below(4) {
        0 => record(inputs, verbs, floats),
        _ => Record {
            verbs: verbs - inputs.below(verbs / 4 + 1),
            points: floats / 2 - inputs.below(floats / 8 + 1),
            start: inputs.point(),
            pen: inputs.point(),
        },
    };
    let (mut path, mut stream) = begin(inputs, verbs, floats, record);
    if inputs.one_in(3) && verbs > 0 {
        let at = inputs.below(verbs);
        path.verbs[at] = inputs.random.bits() as u8;
    }
    for x in &mut path.floats {
        if !inputs.one_in(4) {
            *x = inputs.coordinate();
        }
    }
    stream.verbs.clone_from(&path.verbs);
    stream.floats.clone_from(&path.floats);
    tally.count("streams made by hand", 1);
    read_all(inputs, &path, &stream, tally);
}
