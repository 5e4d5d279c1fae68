#![doc = include_str!("../README.md")]
#![deny(missing_docs)]
#![deny(unsafe_code)]

mod builder;
mod error;
pub mod float;
mod geometry;
mod memory;
mod panel;
mod path;
#[allow(unsafe_code)]
mod raw;
mod shape;

pub use builder::PathBuilder;
pub use error::Error;
pub use geometry::{Point, Rect};
pub use panel::{Panel, PanelBuilder, Record, Records};
pub use path::{CheckedPath, CheckedSegments, Need, Path, PathRecord, Segment, Segments};
pub use shape::{Button, CornerRadii, RoundSuperellipse};

/// The version of the linked library's interface: 2, which is what this crate is made for.
#[must_use]
pub fn version() -> u32 {
    raw::version()
}
