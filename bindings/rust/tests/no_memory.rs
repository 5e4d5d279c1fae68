//! Where memory is asked for and there is none, calls answer `NoRoom` and have changed nothing.
#![allow(clippy::unwrap_used, clippy::arithmetic_side_effects)]

use std::alloc::{GlobalAlloc, Layout, System};
use std::cell::Cell;
use std::ptr;

use shackletongue::{Error, Need, Panel, PanelBuilder, PathBuilder, Rect, RoundSuperellipse};

thread_local! {
    /// How often this thread is still given memory.
    static LEFT: Cell<usize> = const { Cell::new(usize::MAX) };
}

struct Scarce;

/// Whether memory is given once more.
fn given() -> bool {
    LEFT.with(|left| {
        let given = left.get() > 0;
        if left.get() < usize::MAX {
            left.set(left.get().saturating_sub(1));
        }
        given
    })
}

// SAFETY: the system's allocator, or a null pointer, which says that there is no memory.
unsafe impl GlobalAlloc for Scarce {
    unsafe fn alloc(&self, layout: Layout) -> *mut u8 {
        if given() {
            // SAFETY: the caller's layout.
            unsafe { System.alloc(layout) }
        } else {
            ptr::null_mut()
        }
    }

    unsafe fn realloc(&self, old: *mut u8, layout: Layout, size: usize) -> *mut u8 {
        if given() {
            // SAFETY: the caller's block.
            unsafe { System.realloc(old, layout, size) }
        } else {
            ptr::null_mut()
        }
    }

    unsafe fn dealloc(&self, old: *mut u8, layout: Layout) {
        // SAFETY: the caller's block.
        unsafe { System.dealloc(old, layout) }
    }
}

#[global_allocator]
static ALLOCATOR: Scarce = Scarce;

/// What is answered where memory is given so often and then no more.
fn with<T>(times: usize, call: impl FnOnce() -> T) -> T {
    LEFT.set(times);
    let answer = call();
    LEFT.set(usize::MAX);
    answer
}

/// Calls with ever more memory, until nothing is refused; answers how often memory was asked for.
fn scarcer<T>(mut call: impl FnMut() -> Result<T, Error>) -> usize {
    let mut times = 0;
    while let Err(error) = with(times, &mut call) {
        assert_eq!(error, Error::NoRoom);
        times += 1;
        assert!(times < 100);
    }
    times
}

fn shape() -> RoundSuperellipse {
    let radii = shackletongue::CornerRadii::uniform(20.0);
    RoundSuperellipse::new(Rect::new((0.0, 0.0), (100.0, 60.0)), radii).unwrap()
}

#[test]
fn paths_answer_no_room() {
    let shape = shape();
    assert!(scarcer(|| shape.to_path()) > 0);
    let room = Need {
        verbs: 100,
        points: 300,
    };
    assert!(scarcer(|| PathBuilder::fixed(room)) > 0);
    let outline = shape.to_path().unwrap();
    assert!(scarcer(|| outline.to_svg()) > 0);
    assert_eq!(
        scarcer(|| outline.path().bounding_box().ok_or(Error::NoRoom)),
        0
    );
    // a fixed path has its memory from the start
    let mut fixed = PathBuilder::fixed(room).unwrap();
    let calls = || {
        fixed.add(&shape)?;
        fixed.line_to((1.0, 2.0))
    };
    assert_eq!(with(0, calls), Ok(()));

    let mut path = PathBuilder::new();
    let mut refused = 0;
    for step in 0..200 {
        let held = path.record();
        let answer = with(step % 2, || match step % 5 {
            0 => path.move_to((1.0, 2.0)),
            1 => path.cubic_to((1.0, 2.0), (3.0, 4.0), (5.0, 6.0)),
            2 => path.conic_to((1.0, 2.0), (30.0, 4.0), 3.0).map(|_| ()),
            3 => path.add(&shape),
            _ => path.close(),
        });
        if answer.is_err() {
            assert_eq!((answer, path.record()), (Err(Error::NoRoom), held));
            refused += 1;
        } else {
            assert_eq!(path.segments().count(), path.record().verbs);
        }
    }
    assert!((5..150).contains(&refused), "{refused}");
}

#[test]
fn panels_answer_no_room() {
    let mut panel = PanelBuilder::new();
    let mut refused = 0;
    for step in 0..1_000 {
        let held = panel.as_bytes().len();
        let answer = with(step % 2, || {
            if step % 3 == 0 {
                panel.add_button(shape())
            } else {
                panel.add_touch((50.0, 30.0))
            }
        });
        if answer.is_err() {
            assert_eq!((answer, panel.as_bytes().len()), (Err(Error::NoRoom), held));
            refused += 1;
        }
    }
    assert!(refused > 0);
    let read = Panel::new(panel.as_bytes()).unwrap();
    assert!(scarcer(|| read.touch_all()) > 0);
    let top = read.buttons().count().checked_sub(1);
    assert_eq!(with(0, || read.touch((50.0, 30.0))), top);
}
