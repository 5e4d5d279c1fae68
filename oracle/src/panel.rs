//! Panel files and what the programs `fascia` and `inspect` write of them, over the original. Stands in
//! both variants.

use super::path::{access, PathBuilder};
use super::superellipse::access::{from_sizes, shape_floats};
use super::superellipse::RoundSuperellipse;
use crate::stream::{limits, Refusal};
use crate::vec2::Vec2;

/// The longest file.
pub const LIMIT: usize = 65_536;

/// What the original makes of a button's floats.
pub struct Button {
    pub floats: [f32; 12],
    pub shape: Result<RoundSuperellipse, Refusal>,
}

pub enum Record {
    Button(Button),
    Touch(Vec2),
}

fn floats<const N: usize>(payload: &[u8]) -> [f32; N] {
    std::array::from_fn(|i| f32::from_le_bytes(payload[4 * i..4 * i + 4].try_into().unwrap()))
}

/// The record in front and how many bytes it takes, None where it is broken.
pub fn first(file: &[u8]) -> Option<(Record, usize)> {
    let number = |i: usize| Some(u16::from_le_bytes([*file.get(i)?, *file.get(i + 1)?]));
    let (len, kind) = (number(0)? as usize, number(2)?);
    let payload = file.get(4..4 + len)?;
    let record = match (kind, len) {
        (1, 48) => {
            let floats = floats(payload);
            let shape = limits(&floats).map(|()| from_sizes(&floats));
            Record::Button(Button { floats, shape })
        }
        (2, 8) => {
            let [x, y] = floats(payload);
            Record::Touch(Vec2::new(x, y))
        }
        _ => return None,
    };
    Some((record, 4 + len))
}

/// The records, or the offset of the first that is broken.
pub fn records(file: &[u8]) -> Result<Vec<Record>, usize> {
    if file.len() > LIMIT {
        return Err(0);
    }
    let mut list = Vec::new();
    let mut at = 0;
    while at < file.len() {
        let (record, size) = first(&file[at..]).ok_or(at)?;
        list.push(record);
        at += size;
    }
    Ok(list)
}

/// Where each touch goes: to the last shape that contains it. Each shape is made once.
pub fn places(records: &[Record]) -> Vec<Option<usize>> {
    let shapes = records.iter().filter_map(|r| match r {
        Record::Button(button) => Some(&button.shape),
        Record::Touch(_) => None,
    });
    let shapes: Vec<_> = shapes.collect();
    let place = |p: Vec2| {
        let takes = |s: &&Result<RoundSuperellipse, Refusal>| matches!(s, Ok(s) if s.contains(p));
        shapes.iter().rposition(takes)
    };
    let touches = records.iter().filter_map(|r| match r {
        Record::Touch(p) => Some(place(*p)),
        Record::Button(_) => None,
    });
    touches.collect()
}

fn outline(shape: &RoundSuperellipse) -> PathBuilder {
    let mut b = PathBuilder::new();
    shape.add_to(&mut b);
    b
}

fn shape_line(index: usize, shape: &Result<RoundSuperellipse, Refusal>) -> String {
    match shape {
        Ok(shape) => {
            let b = outline(shape);
            let (verbs, points) = (access::verbs(&b).len(), access::points(&b).len());
            format!("shape {index} {verbs} {points}")
        }
        Err(refusal) => format!("shape {index} {refusal}"),
    }
}

/// The lines of the report.
pub fn report(file: &[u8]) -> Vec<String> {
    let records = match records(file) {
        Ok(records) => records,
        Err(at) => return vec![format!("refused 7 at {at}")],
    };
    let mut places = places(&records).into_iter();
    let mut lines = Vec::new();
    let mut index = 0;
    for record in &records {
        lines.push(match record {
            Record::Button(button) => {
                index += 1;
                shape_line(index - 1, &button.shape)
            }
            Record::Touch(_) => match places.next().unwrap() {
                Some(i) => format!("touch {i}"),
                None => "touch none".to_string(),
            },
        });
    }
    lines.push("end".to_string());
    lines
}

/// Why outline and touch area may be apart, by the rule of docs/SPECIFICATION.md, "Consistency"; None where they are
/// consistent.
pub fn reason(bounds: &[f32], shape: &RoundSuperellipse) -> Option<&'static str> {
    let (min, max) = (
        Vec2::new(bounds[0], bounds[1]),
        Vec2::new(bounds[2], bounds[3]),
    );
    let sides = max - min;
    let inside = |p: Vec2, by: Vec2| {
        let (low, high) = (min - by, max + by);
        low.x <= p.x && p.x <= high.x && low.y <= p.y && p.y <= high.y
    };
    let (quadrants, _) = shape_floats(shape);
    if !quadrants
        .iter()
        .all(|q| inside(Vec2::new(q[0], q[1]), Vec2::ZERO))
    {
        return Some("a center lies outside");
    }
    if !shape.contains((min + max) / 2.0) {
        return Some("its middle is not inside");
    }
    // magnitudes on both axes: are their floats close together beside each side, and beside the longer one?
    let beside_each = |p: Vec2| p.x / 16384.0 <= sides.x && p.y / 16384.0 <= sides.y;
    let beside_longer = |p: Vec2| {
        let longer = sides.x.max(sides.y);
        p.x / 2048.0 <= longer && p.y / 2048.0 <= longer
    };
    let reach = min.abs().max(max.abs());
    let fine = |x: f32, y: f32| {
        let stretched = Vec2::new(sides.y * x / y, sides.x * y / x);
        beside_each(reach) && beside_each(stretched) && beside_longer(reach + 4.0 * stretched)
    };
    let normal = sides.x >= f32::MIN_POSITIVE && sides.y >= f32::MIN_POSITIVE;
    if !(fine(1.0, 1.0) && normal) {
        return Some("its sides are too small");
    }
    if !quadrants.iter().all(|q| fine(q[2].abs(), q[3].abs())) {
        return Some("a corner is too oval");
    }
    if !access::points(&outline(shape))
        .iter()
        .all(|p| inside(*p, sides / 128.0))
    {
        return Some("its outline leaves the bounds");
    }
    None
}

fn verdict(button: &Button) -> String {
    match &button.shape {
        Ok(shape) => match reason(&button.floats, shape) {
            Some(why) => format!("parts company: {why}"),
            None => "ok".to_string(),
        },
        Err(refusal) => refusal.clone(),
    }
}

/// The lines of the program `inspect`.
pub fn consistency_report(file: &[u8]) -> Vec<String> {
    let records = match records(file) {
        Ok(records) => records,
        Err(at) => return vec![format!("refused 7 at {at}")],
    };
    let buttons = records.iter().filter_map(|r| match r {
        Record::Button(button) => Some(button),
        Record::Touch(_) => None,
    });
    let lines = buttons
        .enumerate()
        .map(|(i, b)| format!("shape {i} {}", verdict(b)));
    lines.chain(["end".to_string()]).collect()
}

#[cfg(test)]
mod tests {
    use super::report;

    /// The sample panel of the worked examples: a square, then a touch that it takes and one that it
    /// does not.
    #[test]
    fn example() {
        let floats = [
            0f32, 0.0, 10.0, 10.0, 0.0, 0.0, 0.0, 0.0, 0.0, 0.0, 0.0, 0.0,
        ];
        let mut file = vec![48, 0, 1, 0];
        file.extend(floats.into_iter().flat_map(f32::to_le_bytes));
        for x in [0f32, 10.0] {
            file.extend([8, 0, 2, 0]);
            file.extend([x, x].into_iter().flat_map(f32::to_le_bytes));
        }
        let lines = ["shape 0 11 10", "touch 0", "touch none", "end"];
        assert_eq!(report(&file), lines);
        assert_eq!(report(&file[..75]), ["refused 7 at 64"]);
        assert_eq!(report(&[0; 65_537]), ["refused 7 at 0"]);
        assert_eq!(report(&[]), ["end"]);
    }
}
