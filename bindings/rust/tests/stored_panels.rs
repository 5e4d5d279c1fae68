//! Every stored panel file: its report is the original's, and what is read of it is written back.
#![allow(
    clippy::unwrap_used,
    clippy::indexing_slicing,
    clippy::arithmetic_side_effects
)]

mod stored;

use stored::with_one_nan;

use shackletongue::{Error, Panel, PanelBuilder, PathBuilder, Record};

/// The report of the program `fascia`, by way of the crate.
fn report(file: &[u8]) -> String {
    let panel = match Panel::new(file) {
        Ok(panel) => panel,
        Err(Error::BrokenFile { offset }) => return format!("refused 7 at {offset}\n"),
        Err(error) => return error.to_string(),
    };
    let mut path = PathBuilder::new();
    let mut touches = panel.touch_all().unwrap().into_iter();
    let mut index = 0;
    let mut lines = String::new();
    for record in panel.records() {
        let line = match record {
            Record::Button(button) => {
                index += 1;
                let shape = button.shape().map(|shape| {
                    path.clear();
                    path.add(&shape).unwrap();
                    path.record()
                });
                match shape {
                    Ok(held) => format!("shape {} {} {}\n", index - 1, held.verbs, held.points),
                    Err(error) => {
                        format!("shape {} refused {}\n", index - 1, error.number().unwrap())
                    }
                }
            }
            Record::Touch(point) => {
                let found = panel.touch(point);
                assert_eq!(touches.next(), Some(found));
                match found {
                    Some(index) => format!("touch {index}\n"),
                    None => "touch none\n".to_string(),
                }
            }
        };
        lines += &line;
    }
    assert_eq!(touches.next(), None);
    lines + "end\n"
}

#[test]
fn reports_are_the_original_s() {
    let panels = stored::panels();
    assert!(panels.len() > 100);
    for (file, expected) in panels {
        // touch by touch the largest files would take long
        if expected.lines().count() < 1_000 {
            assert_eq!(report(&file), expected);
        }
    }
}

#[test]
fn what_is_read_is_written_back() {
    for (file, report) in stored::panels() {
        let Ok(panel) = Panel::new(&file) else {
            assert!(report.starts_with("refused"));
            continue;
        };
        let mut builder = PanelBuilder::new();
        for record in panel.records() {
            let before = builder.as_bytes().len();
            builder.add(record).unwrap();
            if let Record::Button(button) = record {
                assert_eq!(button.to_bytes(), builder.as_bytes()[before..]);
            }
        }
        assert_eq!(with_one_nan(builder.as_bytes()), with_one_nan(&file));
        assert_eq!(builder.is_empty(), panel.is_empty());
        // it is good, and read again it is written the same
        let read = Panel::new(builder.as_bytes()).unwrap();
        assert_eq!(read, builder.panel());
        let mut again = PanelBuilder::new();
        for record in read {
            again.add(record).unwrap();
        }
        assert_eq!(again, builder);
        // a copy has every bit
        assert_eq!(PanelBuilder::from(panel).into_bytes(), file);
    }
}
