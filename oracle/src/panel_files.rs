//! Panel files, good and damaged, as a text that the program `replay_panels` reads (docs/ORACLE.md):
//! the same at every run.

use crate::random::Random;

use crate::panel;
use crate::shapes::{cornered, refused_shapes, shapes, uniform, Shape};
use crate::words::words;

/// A record as it is written: numbers of 1, 2 or 4 bytes.
#[derive(Clone)]
struct Fields(Vec<String>);

fn byte(n: u8) -> String {
    format!("{n:02x}")
}

fn u16_word(n: u16) -> String {
    format!("{n:04x}")
}

fn bits(n: u32) -> String {
    format!("{n:08x}")
}

fn record(len: u16, kind: u16, payload: &[u32]) -> Fields {
    let mut words = vec![u16_word(len), u16_word(kind)];
    words.extend(payload.iter().copied().map(bits));
    Fields(words)
}

fn button(f: &Shape) -> Fields {
    record(48, 1, &f.map(f32::to_bits))
}

fn touch(x: f32, y: f32) -> Fields {
    record(8, 2, &[x.to_bits(), y.to_bits()])
}

/// A field's bytes, the lowest first.
fn field_bytes(word: &str) -> Option<Vec<u8>> {
    if !matches!(word.len(), 2 | 4 | 8) || word.starts_with('+') {
        return None;
    }
    let n = u32::from_str_radix(word, 16).ok()?;
    Some(n.to_le_bytes()[..word.len() / 2].to_vec())
}

impl Fields {
    fn bytes(&self) -> Vec<u8> {
        self.0
            .iter()
            .flat_map(|w| field_bytes(w).unwrap())
            .collect()
    }
}

struct List(Vec<String>);

impl List {
    fn heading(&mut self, text: &str) {
        self.0.push(format!("# {text}"));
    }

    fn many(&mut self, times: usize, fields: &Fields) {
        self.0.push(format!("{times} {}", fields.0.join(" ")));
    }

    fn report(&mut self) {
        self.0.push("report".to_string());
    }

    /// A file of these records.
    fn file(&mut self, records: &[Fields]) {
        for r in records {
            self.many(1, r);
        }
        self.report();
    }

    /// A file of these bytes.
    fn bytes(&mut self, bytes: &[u8]) {
        for part in bytes.chunks(64) {
            self.many(1, &Fields(part.iter().copied().map(byte).collect()));
        }
        self.report();
    }
}

fn square() -> Shape {
    uniform([0.0; 2], [10.0; 2], [0.0; 2])
}

fn rounded() -> Shape {
    uniform([20.0, 0.0], [60.0, 20.0], [6.0; 2])
}

fn examples(list: &mut List) {
    list.heading("an empty file");
    list.file(&[]);
    list.heading("The sample panel of the worked examples");
    list.file(&[button(&square()), touch(0.0, 0.0), touch(10.0, 10.0)]);
    list.heading("one record of either kind");
    list.file(&[button(&rounded())]);
    list.file(&[touch(5.0, 5.0)]);
    list.heading("touches before their shapes, between and behind them");
    let (a, b) = (button(&square()), button(&rounded()));
    let (p, q, r) = (touch(5.0, 5.0), touch(40.0, 10.0), touch(15.0, 10.0));
    list.file(&[p.clone(), q.clone(), a.clone(), b.clone()]);
    list.file(&[q.clone(), a, p.clone(), b, r.clone(), q, p, r]);
}

/// The touches within each other's shapes, and where only one of them contains the point.
fn overlaps(list: &mut List) {
    list.heading("many shapes over one point");
    let ring = |k: usize| {
        let k = k as f32;
        uniform([-k, -k], [k, k], [k / 2.0; 2])
    };
    let touches = [0.5, 3.5, 7.5, 11.5, 12.5].map(|x| touch(x, 0.0));
    let mut inwards: Vec<Fields> = (1..=12).rev().map(|k| button(&ring(k))).collect();
    let mut outwards: Vec<Fields> = (1..=12).map(|k| button(&ring(k))).collect();
    inwards.extend(touches.clone());
    outwards.extend(touches);
    list.file(&inwards);
    list.file(&outwards);
    list.heading("the same shape 40 times, and twice");
    list.many(1, &touch(5.0, 5.0));
    list.many(40, &button(&square()));
    list.report();
    list.file(&[button(&square()), button(&square()), touch(5.0, 5.0)]);
    list.heading(
        "two shapes partly one over the other, in both orders, the touches first, between or last",
    );
    let (a, b) = (
        button(&square()),
        button(&uniform([5.0; 2], [15.0; 2], [2.0; 2])),
    );
    let touches = [2.0, 7.0, 12.0, 5.1, 16.0].map(|x| touch(x, x));
    for (under, over) in [(&a, &b), (&b, &a)] {
        for at in 0..=2 {
            let mut records = vec![under.clone(), over.clone()];
            records.splice(at..at, touches.clone());
            list.file(&records);
        }
    }
    list.heading(
        "a small shape over a large one and under it, refused ones over, between and under them",
    );
    let (large, small) = (
        button(&rounded()),
        button(&uniform([30.0, 5.0], [50.0, 15.0], [4.0; 2])),
    );
    let bad = button(&uniform([30.0, 5.0], [50.0, 4.0], [4.0; 2]));
    let touches = [40.0, 22.0, 58.0].map(|x| touch(x, 10.0));
    for (under, over) in [(&large, &small), (&small, &large)] {
        for refused in 0..=2 {
            let mut records = vec![under.clone(), over.clone()];
            records.insert(refused, bad.clone());
            records.extend(touches.clone());
            list.file(&records);
        }
    }
}

fn refusals(list: &mut List) {
    list.heading("refused shapes between good ones: the causes 2, 3 and 4");
    let with = |i: usize, x: f32| {
        let mut f = rounded();
        f[i] = x;
        f
    };
    let bad = [with(0, f32::NAN), with(7, -1.0), with(2, 0.0)];
    let touches = [touch(40.0, 10.0), touch(5.0, 5.0), touch(100.0, 0.0)];
    for b in &bad {
        let mut records = vec![button(b), button(&rounded()), button(b), button(&square())];
        records.extend(touches.clone());
        list.file(&records);
    }
    let mut records: Vec<Fields> = bad.iter().map(button).collect();
    records.push(button(&square()));
    records.extend(touches.clone());
    list.file(&records);
    list.heading("nothing but refused shapes");
    let mut records: Vec<Fields> = bad.iter().map(button).collect();
    records.extend(touches);
    list.file(&records);
    list.heading("every float of a shape at every cause");
    list.file(&refused_shapes().iter().map(button).collect::<Vec<_>>());
}

/// Every way to write a NaN: quiet and signalling, both signs, any fraction.
const NANS: [u32; 8] = [
    0x7fc0_0000,
    0xffc0_0000,
    0x7f80_0001,
    0xff80_0001,
    0x7fff_ffff,
    0xffff_ffff,
    0x7fa5_5aa5,
    0xffbf_ffff,
];

fn odd_floats(list: &mut List) {
    list.heading("NaN patterns of every kind, and infinities, as a touch");
    let mut records = vec![button(&square())];
    for n in NANS.into_iter().chain([0x7f80_0000, 0xff80_0000]) {
        let five = 5f32.to_bits();
        records.extend([[n, five], [five, n], [n, n]].map(|p| record(8, 2, &p)));
    }
    list.file(&records);
    list.heading("and as each float of a shape");
    let mut records = Vec::new();
    for (i, n) in NANS.into_iter().cycle().take(24).enumerate() {
        let mut f = square().map(f32::to_bits);
        f[i % 12] = n;
        records.push(record(48, 1, &f));
    }
    records.push(button(&square()));
    records.push(touch(5.0, 5.0));
    list.file(&records);
    list.heading("zeros of both signs and subnormal numbers");
    let tiny = [0x8000_0000, 0x0000_0001, 0x8000_0001, 0x007f_ffff];
    let mut records = vec![button(&square())];
    records.extend(tiny.map(|n| record(8, 2, &[n, 5f32.to_bits()])));
    list.file(&records);
}

fn lengths(list: &mut List) {
    list.heading("65,536 bytes: the longest file, with one shape and 5,457 touches");
    let ends = |list: &mut List, touches: usize| {
        list.many(touches, &touch(5.0, 5.0));
        list.many(1, &button(&square()));
    };
    ends(list, 5457);
    list.report();
    list.heading("65,537 bytes, whatever they hold");
    ends(list, 5457);
    list.many(1, &Fields(vec![byte(0)]));
    list.report();
    list.heading("65,536 bytes of zeros, and one more");
    for zeros in [65_536, 65_537] {
        list.many(zeros, &Fields(vec![byte(0)]));
        list.report();
    }
    list.heading("1,260 shapes, the most that a file holds, and a touch in the last");
    list.many(1, &touch(40.0, 10.0));
    list.many(1259, &button(&square()));
    list.many(1, &button(&rounded()));
    list.report();
    list.heading("5,461 touches, the most that a file holds; and one too many, cut and whole");
    for extra in [0, 4, 12] {
        list.many(5461, &touch(1.0, 2.0));
        list.many(extra, &Fields(vec![byte(0)]));
        list.report();
    }
    list.heading("70,000 bytes of good records");
    list.many(5834, &touch(1.0, 2.0));
    list.report();
}

/// One field of one record has another value.
fn damage(list: &mut List) {
    list.heading("damage: lengths and kinds of each record in turn");
    let good = [
        button(&square()),
        touch(1.0, 1.0),
        button(&rounded()),
        touch(2.0, 2.0),
    ];
    for at in 0..good.len() {
        let (len, kind) = if at % 2 == 0 { (48, 1) } else { (8, 2) };
        let other_len = 56 - len;
        for n in [
            0,
            1,
            len - 1,
            len + 1,
            len + 256,
            other_len,
            0x3000,
            0x0800,
            0xffff,
        ] {
            let mut records = good.clone();
            records[at].0[0] = u16_word(n);
            list.file(&records);
        }
        for n in [0, 3 - kind, 3, 4, 0x0100, 0x0200, kind + 256, 0xffff] {
            let mut records = good.clone();
            records[at].0[1] = u16_word(n);
            list.file(&records);
        }
    }
    list.heading("a record of unknown kind with a length of its own, then good ones");
    let unknown = record(4, 9, &[7]);
    list.file(&[good[0].clone(), unknown.clone(), good[1].clone()]);
    list.file(&[unknown, good[0].clone()]);
    list.heading("a payload of a button under the kind of a touch, and the other way round");
    list.file(&[record(48, 2, &square().map(f32::to_bits))]);
    list.file(&[record(8, 1, &[0, 0])]);
    list.heading("a good file with bytes behind it");
    let mut bytes: Vec<u8> = good.iter().flat_map(Fields::bytes).collect();
    for extra in [0u8, 8, 0xff, 0] {
        bytes.push(extra);
        list.bytes(&bytes);
    }
}

fn cuts(list: &mut List) {
    list.heading("cut at every byte: a touch, a button, a touch");
    let records = [touch(1.0, 1.0), button(&rounded()), touch(30.0, 10.0)];
    let bytes: Vec<u8> = records.iter().flat_map(Fields::bytes).collect();
    for n in 0..bytes.len() {
        list.bytes(&bytes[..n]);
    }
}

/// Shapes at which a rule of the original changes, each with touches about it.
fn shape_panels(list: &mut List) {
    list.heading("panels of the oracle's shapes, with touches about them");
    let mut random = Random(0xfa5c_1a00);
    let all = shapes();
    for some in all.chunks(all.len().div_ceil(6)) {
        let mut records = Vec::new();
        for f in some.iter().step_by(4) {
            records.push(button(f));
            let mut part = |lo: f32, hi: f32| random.within(lo.into(), hi.into()) as f32;
            let (x, y) = (part(f[0], f[2]), part(f[1], f[3]));
            records.push(touch(x, y));
        }
        list.file(&records);
    }
    list.heading("unequal corners");
    let f = cornered(
        [0.0; 2],
        [40.0, 30.0],
        [[2.0; 2], [9.0, 4.0], [0.0; 2], [12.0; 2]],
    );
    let corners = [
        (0.1, 0.1),
        (39.9, 0.1),
        (0.1, 29.9),
        (39.9, 29.9),
        (20.0, 15.0),
    ];
    let mut records = vec![button(&f)];
    records.extend(corners.map(|(x, y)| touch(x, y)));
    list.file(&records);
}

pub fn lines() -> Vec<String> {
    let mut list = List(Vec::new());
    examples(&mut list);
    overlaps(&mut list);
    refusals(&mut list);
    odd_floats(&mut list);
    lengths(&mut list);
    damage(&mut list);
    cuts(&mut list);
    shape_panels(&mut list);
    list.0
}

/// The largest mixed file: 630 shapes side by side, 2,730 touches.
pub fn largest() -> Vec<u8> {
    mixed(50.0, 40.0, 1550.0)
}

/// As many of each, the shapes one over the other: most touches lie on hundreds.
pub fn overlapping() -> Vec<u8> {
    mixed(10.0, 200.0, 550.0)
}

/// Square shapes of this side, so far apart, and touches as far as that.
fn mixed(apart: f32, side: f32, far: f64) -> Vec<u8> {
    let mut random = Random(0xb16_f11e);
    let mut bytes = Vec::new();
    for i in 0..630 {
        let (x, y) = ((i % 30) as f32 * apart, (i / 30) as f32 * apart);
        let mut radius = || [(); 2].map(|()| random.within(0.0, 20.0) as f32);
        let radii = if i % 2 == 0 {
            [radius(); 4]
        } else {
            [(); 4].map(|()| radius())
        };
        bytes.extend(button(&cornered([x, y], [x + side, y + side], radii)).bytes());
        let touches = if i % 3 == 0 { 5 } else { 4 };
        for _ in 0..touches {
            let mut at = || random.within(-50.0, far) as f32;
            bytes.extend(touch(at(), at()).bytes());
        }
    }
    bytes
}

/// A line's bytes behind the file's, or the report on the file. None where the line is bad.
fn take(file: &mut Vec<u8>, line: &[u8], out: &mut Vec<String>) -> Option<()> {
    let words = words(line)?;
    let Some((name, rest)) = words.split_first() else {
        return Some(());
    };
    if *name == b"report" {
        out.extend(panel::report(file));
        file.clear();
        return rest.is_empty().then_some(());
    }
    let text = |w: &[u8]| String::from_utf8(w.to_vec()).ok();
    let times: usize = text(name)?.parse().ok()?;
    let mut bytes = Vec::new();
    for w in rest {
        bytes.extend(field_bytes(&text(w)?)?);
    }
    file.extend(bytes.repeat(times));
    Some(())
}

/// The reports on the files of such a text.
pub fn reports(text: &[u8]) -> Vec<String> {
    let mut file = Vec::new();
    let mut out = Vec::new();
    for line in text.split(|b| *b == b'\n') {
        if take(&mut file, line, &mut out).is_none() {
            out.push("bad".to_string());
            return out;
        }
    }
    out
}
