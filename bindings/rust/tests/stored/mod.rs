//! The panel files that the repository stores, good and broken, with the original's reports.
// each test takes what it needs
#![allow(dead_code)]

use std::fs;

const TOP: &str = concat!(env!("CARGO_MANIFEST_DIR"), "/../..");

/// The sample panel.
pub fn sample() -> Vec<u8> {
    fs::read(format!("{TOP}/samples/ringer.panel")).unwrap()
}

/// Every stored file with its report, the sample first. docs/REPLAY.md has the text that they are
/// stored as: lines of a number of repetitions and of fields, whose hexadecimal digits have the
/// highest byte first; `report` ends a file, and its report ends with `end` or with a refusal.
pub fn panels() -> Vec<(Vec<u8>, String)> {
    let report = fs::read_to_string(format!("{TOP}/samples/ringer.report")).unwrap();
    let mut panels = vec![(sample(), report)];
    let replay = format!("{TOP}/crates/replay_panels");
    let reports = fs::read_to_string(format!("{replay}/stdout")).unwrap();
    let mut reports = reports.split_inclusive('\n');
    let mut file = Vec::new();
    for line in fs::read_to_string(format!("{replay}/stdin"))
        .unwrap()
        .lines()
    {
        let line = line.split('#').next().unwrap_or_default();
        let mut words = line.split_whitespace();
        match words.next() {
            None => {}
            Some("report") => {
                let mut report = String::new();
                while !report.ends_with("end\n") && !report.starts_with("refused") {
                    report += reports.next().unwrap();
                }
                panels.push((std::mem::take(&mut file), report));
            }
            Some(times) => {
                let record: Vec<u8> = words.flat_map(field).collect();
                file.extend(record.repeat(times.parse().unwrap()));
            }
        }
    }
    assert_eq!(reports.next(), None);
    panels
}

/// A panel file with one NaN for all: sign and payload say nothing, and need not come back.
pub fn with_one_nan(file: &[u8]) -> Vec<u8> {
    let words = file.chunks(4).map(|word| {
        let float = word.try_into().map(f32::from_le_bytes);
        if float.is_ok_and(f32::is_nan) {
            vec![0xff; 4]
        } else {
            word.to_vec()
        }
    });
    words.flatten().collect()
}

/// A number of 1, 2 or 4 bytes, the lowest first.
fn field(word: &str) -> Vec<u8> {
    let number = u32::from_str_radix(word, 16).unwrap();
    number.to_le_bytes()[..word.len() / 2].to_vec()
}
