//! Links the static library that `bindings/build` makes of the crates of exported functions, from the
//! folder that SHACKLETONGUE_LIB names, else the default one.

use std::path::PathBuf;

fn main() {
    println!("cargo:rerun-if-env-changed=SHACKLETONGUE_LIB");
    let manifest = PathBuf::from(std::env::var("CARGO_MANIFEST_DIR").unwrap());
    let folder = std::env::var_os("SHACKLETONGUE_LIB").unwrap_or("../target/staticlib".into());
    let folder = manifest.join(folder);
    println!("cargo:rustc-link-search=native={}", folder.display());
    println!("cargo:rustc-link-lib=static=shackletongue");
    let archive = folder.join("libshackletongue.a");
    println!("cargo:rerun-if-changed={}", archive.display());
}
