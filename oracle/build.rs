//! Takes the original's two files from the folder that SHACKLETONGUE_SOURCE names (the one that
//! holds crates/emblema-geometry/src), makes the few substitutions that its missing dependency and
//! the written-out elementary functions ask, and writes the result to OUT_DIR. Nothing of the original
//! stands in this repository.
//!
//! Each substitution is counted, and each file's checksum is compared, so that another state of the
//! original is refused and not answered for.

use std::env;
use std::fs;
use std::path::{Path, PathBuf};

/// A text that is replaced, by what, and how often it must stand in the file.
type Substitution = (&'static str, &'static str, usize);

struct Source {
    name: &'static str,
    checksum: u64,
    /// Made in both variants: the crate `glam` and the place of the module `path`.
    placed: &'static [Substitution],
    /// Made in the variant `written` alone: the platform's functions by those that are written out.
    written: &'static [Substitution],
    /// What must stand in the file this often and stays as it is.
    kept: &'static [(&'static str, usize)],
}

/// In place of `use glam::Vec2;`. The trait serves the variant `written` alone.
const VEC2: &str = "use crate::{elementary::Written as _, vec2::Vec2};";

const SOURCES: [Source; 2] = [
    Source {
        name: "path",
        checksum: 0x8134_ec0c_4fc7_1b5d,
        placed: &[("use glam::Vec2;", VEC2, 1)],
        // only `arc`, which is not ported, uses it
        written: &[(".tan(", ".written_tan(", 1)],
        kept: &[
            (".powf(", 0),
            (".powi(", 0),
            (".atan2(", 0),
            (".sin_cos(", 0),
            (".sin(", 3),
            (".cos(", 3),
            (".exp(", 0),
            (".ln(", 0),
            (".mul_add(", 0),
            (".sqrt(", 1),
        ],
    },
    Source {
        name: "superellipse",
        checksum: 0x0ea5_9bcf_f507_b339,
        placed: &[
            ("use glam::Vec2;", VEC2, 1),
            ("use crate::path::", "use super::path::", 1),
        ],
        written: &[
            (".powf(", ".written_powf(", 9),
            (".atan2(", ".written_atan2(", 2),
            (".sin_cos(", ".written_sin_cos(", 1),
            (".tan(", ".written_tan(", 1),
        ],
        kept: &[
            (".powi(", 0),
            (".sin(", 0),
            (".cos(", 0),
            (".exp(", 0),
            (".ln(", 0),
            (".mul_add(", 0),
            (".sqrt(", 3),
        ],
    },
];

/// FNV-1a over the bytes.
fn checksum(text: &str) -> u64 {
    text.bytes().fold(0xcbf2_9ce4_8422_2325, |h, b| {
        (h ^ b as u64).wrapping_mul(0x0000_0100_0000_01b3)
    })
}

fn expect(source: &Source, what: &str, found: usize, expected: usize) {
    if found != expected {
        panic!(
            "{}.rs: {what}: found {found}, expected {expected}",
            source.name
        );
    }
}

fn substitute(source: &Source, text: &str, list: &[Substitution]) -> String {
    list.iter()
        .fold(text.to_string(), |text, (old, new, times)| {
            expect(source, old, text.matches(old).count(), *times);
            text.replace(old, new)
        })
}

/// The file, with a module `access` of ours inside it, which reaches its private items.
fn with_access(source: &Source, text: &str, manifest: &Path) -> String {
    let ours = manifest
        .join("src/access")
        .join(format!("{}.rs", source.name));
    format!("{text}\n#[path = {ours:?}]\npub mod access;\n")
}

fn main() {
    println!("cargo:rerun-if-env-changed=SHACKLETONGUE_SOURCE");
    let folder = PathBuf::from(env::var("SHACKLETONGUE_SOURCE").unwrap_or_else(|_| {
        panic!("SHACKLETONGUE_SOURCE must name the folder that holds crates/emblema-geometry/src")
    }));
    let manifest = PathBuf::from(env::var("CARGO_MANIFEST_DIR").unwrap());
    let out = PathBuf::from(env::var("OUT_DIR").unwrap());
    let mut modules = String::new();
    for variant in ["written", "native"] {
        fs::create_dir_all(out.join(variant)).unwrap();
        modules +=
            &format!("/// The original on {variant} float functions.\npub mod {variant} {{\n");
        for source in &SOURCES {
            let file = folder
                .join("crates/emblema-geometry/src")
                .join(format!("{}.rs", source.name));
            println!("cargo:rerun-if-changed={}", file.display());
            let text =
                fs::read_to_string(&file).unwrap_or_else(|e| panic!("{}: {e}", file.display()));
            for (word, times) in source.kept {
                expect(source, word, text.matches(word).count(), *times);
            }
            if checksum(&text) != source.checksum {
                panic!(
                    "{}.rs: checksum {:#018x}, expected {:#018x}",
                    source.name,
                    checksum(&text),
                    source.checksum
                );
            }
            let mut text = substitute(source, &text, source.placed);
            if variant == "written" {
                text = substitute(source, &text, source.written);
            }
            let made = out.join(variant).join(format!("{}.rs", source.name));
            fs::write(&made, with_access(source, &text, &manifest)).unwrap();
            modules += &format!(
                "    #[allow(unused_imports)]\n    #[path = {made:?}]\n    pub mod {};\n",
                source.name
            );
        }
        let panel = manifest.join("src/panel.rs");
        modules += &format!("    #[path = {panel:?}]\n    pub mod panel;\n}}\n");
    }
    fs::write(out.join("original.rs"), modules).unwrap();
}
