//! The original, built from its own folder by build.rs, in two variants: `written` on the elementary
//! functions as written out here, which decides every answer, and `native` on the platform's, for
//! comparison of speed alone.

pub mod elementary;
pub mod panel_files;
pub mod random;
pub mod shapes;
pub mod stream;
pub mod vec2;
pub mod words;

include!(concat!(env!("OUT_DIR"), "/original.rs"));

pub use written::panel;
