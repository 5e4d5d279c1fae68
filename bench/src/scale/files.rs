//! Panel files, good and damaged: records read and written, touches one by one, and all touches at once.

use oracle::panel::{self, Record};
use oracle::vec2::Vec2;

use super::{all_same, kept, Inputs, Tally};
use crate::library::{self, Sizes, NOWHERE, RESULTS};

const UNSET: u32 = 0xabad_cafe;

fn push(file: &mut Vec<u8>, kind: u16, floats: &[f32]) {
    file.extend((4 * floats.len() as u16).to_le_bytes());
    file.extend(kind.to_le_bytes());
    file.extend(floats.iter().flat_map(|x| x.to_bits().to_le_bytes()));
}

fn between(inputs: &mut Inputs, low: f32, high: f32) -> f32 {
    let margin = 0.1 * (high - low) as f64 + 1e-3;
    let (low, high) = (low as f64 - margin, high as f64 + margin);
    if low < high {
        inputs.within(low, high)
    } else {
        inputs.coordinate()
    }
}

/// A point about a button, or anywhere.
fn touch(inputs: &mut Inputs, buttons: &[Sizes]) -> [f32; 2] {
    if buttons.is_empty() || inputs.one_in(6) {
        return [inputs.coordinate(), inputs.coordinate()];
    }
    let s = buttons[inputs.below(buttons.len())];
    [between(inputs, s[0], s[2]), between(inputs, s[1], s[3])]
}

/// So many records, and the buttons among them.
fn good(inputs: &mut Inputs, records: usize) -> (Vec<u8>, Vec<Sizes>) {
    let (mut file, mut buttons) = (Vec::new(), Vec::new());
    for _ in 0..records {
        if inputs.one_in(3) {
            add_button(inputs, &mut file, &mut buttons);
        } else {
            add_touch(inputs, &mut file, &buttons);
        }
    }
    (file, buttons)
}

fn add_button(inputs: &mut Inputs, file: &mut Vec<u8>, buttons: &mut Vec<Sizes>) {
    let sizes = inputs.sizes();
    push(file, 1, &sizes);
    buttons.push(sizes);
}

fn add_touch(inputs: &mut Inputs, file: &mut Vec<u8>, buttons: &[Sizes]) {
    let p = touch(inputs, buttons);
    push(file, 2, &p);
}

/// A file of 65,536 bytes, the longest, or of one byte or one record more.
fn longest(inputs: &mut Inputs) -> (Vec<u8>, Vec<Sizes>) {
    let (mut file, mut buttons) = (Vec::new(), Vec::new());
    // so that whole touches fill the rest
    for _ in 0..1 + 3 * inputs.below(12) {
        add_button(inputs, &mut file, &mut buttons);
    }
    while file.len() < panel::LIMIT {
        add_touch(inputs, &mut file, &buttons);
    }
    match inputs.below(4) {
        0 => file.push(0),
        1 => add_touch(inputs, &mut file, &buttons),
        _ => {}
    }
    (file, buttons)
}

/// A byte changed, mostly one of the first records' heads; cut short; bytes put in or behind.
fn damage(inputs: &mut Inputs, file: &mut Vec<u8>) {
    let end = file.len();
    match inputs.below(6) {
        0 if end > 0 => {
            let at = inputs.below(end.min(120));
            file[at] ^= 1 << inputs.below(8);
        }
        1 if end > 0 => {
            let at = inputs.below(end);
            file[at] = inputs.random.bits() as u8;
        }
        2 => file.truncate(inputs.below(end + 1)),
        3 => {
            let at = inputs.below(end + 1);
            file.insert(at, inputs.random.bits() as u8);
        }
        4 => (0..=inputs.below(60)).for_each(|_| file.push(inputs.random.bits() as u8)),
        _ => push(
            file,
            inputs.random.below(4) as u16,
            &[0.0; 20][..inputs.below(20)],
        ),
    }
}

fn bytes(file: &[u8]) -> String {
    file.iter().map(|b| format!("{b:02x}")).collect()
}

/// The record at an offset by both. The next offset, while there is one.
fn record(inputs: &mut Inputs, file: &[u8], at: u64, tally: &mut Tally) -> Option<u64> {
    let before = [at, inputs.random.bits()];
    let mut place = before;
    let unread: [f32; 12] = std::array::from_fn(|_| inputs.any());
    let mut floats = unread;
    let answer = library::record(file, &mut place, &mut floats);
    let rest = file
        .get(at.min(file.len() as u64) as usize..)
        .unwrap_or(&[]);
    let (number, expected, read, next) = if file.len() > panel::LIMIT {
        (7, [0, before[1]], vec![], None)
    } else if rest.is_empty() {
        (0, [at, 0], vec![], None)
    } else {
        match panel::first(rest) {
            None => (7, before, vec![], None),
            Some((record, size)) => {
                let next = at + size as u64;
                let (kind, read) = match record {
                    Record::Button(button) => (1, button.floats.to_vec()),
                    Record::Touch(p) => (2, vec![p.x, p.y]),
                };
                (0, [next, kind], read, Some(next))
            }
        }
    };
    let equal = answer == number
        && place == expected
        && all_same(&floats[..read.len()], &read)
        && kept(&floats[read.len()..], &unread[read.len()..]);
    tally.case("records read", equal, || {
        format!("at {at} of {}", bytes(file))
    });
    next
}

/// A float as a file's bytes; any NaN as one of them.
fn written_bits(x: &f32) -> [u8; 4] {
    let bits = if x.is_nan() { 0x7fc0_0000 } else { x.to_bits() };
    bits.to_le_bytes()
}

/// A record of any kind written anywhere into a file of any bytes: refused, or its bytes are there and no other byte
/// has changed.
pub fn written(inputs: &mut Inputs, tally: &mut Tally) {
    let kind = match inputs.below(10) {
        0 => inputs.pick(&[0, 3, 1 << 16 | 1, 1 << 32 | 2, u64::MAX]),
        k => 1 + k as u64 % 2,
    };
    let floats: [f32; 12] = std::array::from_fn(|_| inputs.any());
    let size = if kind == 1 { 52 } else { 12 };
    let len = if inputs.one_in(20) {
        panel::LIMIT - 60 + inputs.below(200)
    } else {
        inputs.below(160)
    };
    let about = [0, len.saturating_sub(size), panel::LIMIT - size];
    let at = match inputs.below(16) {
        0 => u64::MAX - inputs.below(60) as u64,
        1 => 1 << inputs.below(64),
        2..=5 => (inputs.pick(&about) + inputs.below(3)).saturating_sub(1) as u64,
        _ => inputs.below(len.saturating_sub(size) + 1) as u64,
    };
    let before: Vec<u8> = (0..len).map(|_| inputs.random.bits() as u8).collect();
    let fits = at <= (panel::LIMIT.min(len) as u64).saturating_sub(size as u64) && size <= len;
    let (number, expected, file_after) = if kind != 1 && kind != 2 {
        (7, at, before.clone())
    } else if !fits {
        (5, at, before.clone())
    } else {
        let (from, read) = (at as usize, if kind == 1 { 12 } else { 2 });
        let mut record = vec![(4 * read) as u8, 0, kind as u8, 0];
        record.extend(floats[..read].iter().flat_map(written_bits));
        let mut after = before.clone();
        after[from..from + size].copy_from_slice(&record);
        (0, at + size as u64, after)
    };
    let (mut file, mut place) = (before, [at, kind]);
    let answer = library::put_record(&mut file, &mut place, &floats);
    let equal = answer == number && place == [expected, kind] && file == file_after;
    tally.case("records written", equal, || {
        format!("kind {kind} at {at} of {len} bytes")
    });
    if answer != 0 {
        tally.count("records not written", 1);
    }
}

/// All touches of the file at once, and one by one points that it need not hold.
fn touches(inputs: &mut Inputs, file: &[u8], buttons: &[Sizes], tally: &mut Tally) {
    let points: Vec<[f32; 2]> = (0..4).map(|_| touch(inputs, buttons)).collect();
    let (mut results, mut count) = ([UNSET; RESULTS], [u64::MAX]);
    let answer = library::touch_all(file, &mut results, &mut count);
    let records = panel::records(file);
    let (equal, places) = match records {
        Err(at) => (
            answer == 7 && count == [at as u64] && results.iter().all(|r| *r == UNSET),
            Err(at as u64),
        ),
        Ok(mut records) => {
            let held = records.iter();
            let held = held.filter(|r| matches!(r, Record::Touch(_))).count();
            records.extend(points.iter().map(|p| Record::Touch(Vec2::new(p[0], p[1]))));
            let places = panel::places(&records);
            let (held, asked) = places.split_at(held);
            let indices = held.iter().map(|p| p.map_or(NOWHERE, |i| i as u32));
            tally.count("touches", held.len() as u64);
            let equal = answer == 0
                && count == [held.len() as u64]
                && indices.eq(results[..held.len()].iter().copied())
                && results[held.len()..].iter().all(|r| *r == UNSET);
            (equal, Ok(asked.to_vec()))
        }
    };
    tally.case("files", equal, || bytes(file));
    if answer == 7 {
        tally.count("files broken", 1);
    }
    for (k, [x, y]) in points.into_iter().enumerate() {
        let mut place = [u64::MAX];
        let answer = library::touch(file, x, y, &mut place);
        let expected = match &places {
            Err(at) => (7, [*at]),
            Ok(list) => match list[k] {
                Some(index) => (0, [index as u64]),
                None => (101, [u64::MAX]),
            },
        };
        tally.case("touches", (answer, place) == expected, || {
            format!("{:08x} {:08x} in {}", x.to_bits(), y.to_bits(), bytes(file))
        });
    }
}

pub fn file(inputs: &mut Inputs, tally: &mut Tally) {
    let (mut file, buttons) = match inputs.below(200) {
        0 => longest(inputs),
        1..=5 => any_number(inputs, 4000),
        6..=24 => any_number(inputs, 200),
        _ => any_number(inputs, 24),
    };
    for _ in 0..[0, 0, 1, 1, 2][inputs.below(5)] {
        damage(inputs, &mut file);
    }
    let mut at = Some(0);
    while let Some(offset) = at {
        at = record(inputs, &file, offset, tally);
    }
    for _ in 0..4 {
        let offset = if inputs.one_in(4) {
            inputs.pick(&[u64::MAX, 65_536, 65_535, 1 << 32])
        } else {
            inputs.below(file.len() + 3) as u64
        };
        record(inputs, &file, offset, tally);
    }
    touches(inputs, &file, &buttons, tally);
}

fn any_number(inputs: &mut Inputs, most: usize) -> (Vec<u8>, Vec<Sizes>) {
    let records = inputs.below(most);
    good(inputs, records)
}
