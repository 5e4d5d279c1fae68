//! How much memory and stack calls take.
#![allow(clippy::unwrap_used, clippy::arithmetic_side_effects)]

use shackletongue::{Need, Panel, PanelBuilder, Path, PathBuilder};

/// The peak of the memory that this process has touched, in KiB.
fn touched() -> usize {
    let status = std::fs::read_to_string("/proc/self/status").unwrap();
    let line = status.lines().find(|line| line.starts_with("VmHWM:"));
    let words = line.unwrap().split_whitespace().nth(1);
    words.unwrap().parse().unwrap()
}

#[test]
fn a_fixed_path_touches_only_what_it_uses() {
    let room = Need {
        verbs: 1_500_000_000,
        points: 100_000_000,
    };
    let before = touched();
    // where the system does not lend so much, that is an answer too
    if let Ok(mut path) = PathBuilder::fixed(room) {
        assert_eq!(path.room(), room);
        for _ in 0..1_000 {
            path.line_to((1.0, 2.0)).unwrap();
        }
        assert_eq!(path.clone().room(), room);
    }
    assert!(touched() - before < 100_000);
}

#[test]
fn no_call_takes_more_than_64_kib_of_stack() {
    let body = || {
        let file = include_bytes!("../../../samples/ringer.panel");
        let panel = Panel::new(file).unwrap();
        let mut written = PanelBuilder::new();
        for record in panel {
            written.add(record).unwrap();
        }
        assert_eq!(written.as_bytes(), file);
        let mut all = PathBuilder::new();
        for button in panel.buttons() {
            let Ok(shape) = button.shape() else { continue };
            all.add(&shape).unwrap();
            shape.to_path().unwrap().to_svg().unwrap();
            assert!(shape.is_consistent());
        }
        all.conic_to((1.0, 9.0), (5.0, 5.0), 40.0).unwrap();
        all.bounding_box().unwrap();
        Path::from(all.path()).check().unwrap();
        for (point, found) in panel.touches().zip(panel.touch_all().unwrap()) {
            assert_eq!(panel.touch(point), found);
        }
    };
    // the thread itself takes some KiB of it
    let thread = std::thread::Builder::new().stack_size(64 * 1024);
    thread.spawn(body).unwrap().join().unwrap();
}
