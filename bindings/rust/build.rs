//! Links libshackletongue.a: from the folder that `SHACKLETONGUE_LIB` names, else from the
//! repository's target/staticlib, where `bindings/build` puts it. A library whose version is not the
//! crate's is refused; where it cannot run on the machine that builds, its version is not asked.

use std::env;
use std::ffi::OsString;
use std::fs;
use std::path::{Path, PathBuf};
use std::process::{Command, ExitCode};

const NAME: &str = "libshackletongue.a";

/// The version of the library's interface that the crate is made for.
const VERSION: &str = "2";

/// A program that prints the library's version.
const ASKING: &str = r#"
extern "C" {
    fn shackletongue_version() -> u32;
}

fn main() {
    println!("{}", unsafe { shackletongue_version() });
}
"#;

fn main() -> ExitCode {
    match link() {
        Ok(()) => ExitCode::SUCCESS,
        Err(why) => {
            eprintln!("{why}");
            ExitCode::FAILURE
        }
    }
}

fn link() -> Result<(), String> {
    println!("cargo:rerun-if-env-changed=SHACKLETONGUE_LIB");
    println!("cargo:rerun-if-changed=build.rs");
    let named = env::var_os("SHACKLETONGUE_LIB").filter(|folder| !folder.is_empty());
    let folder = match named {
        Some(folder) => PathBuf::from(folder),
        None => PathBuf::from(var("CARGO_MANIFEST_DIR")?).join("../../target/staticlib"),
    };
    let folder = folder.canonicalize().unwrap_or(folder);
    let archive = folder.join(NAME);
    println!("cargo:rerun-if-changed={}", archive.display());
    if !archive.exists() {
        return Err(format!(
            "{} is not there: run bindings/build, or set SHACKLETONGUE_LIB to the folder of {NAME}",
            archive.display()
        ));
    }
    if var("HOST")? == var("TARGET")? {
        let version = version(&folder)?;
        if version != VERSION {
            return Err(format!(
                "{} has version {version} and the crate is for version {VERSION}: run \
                 bindings/build of the repository that the crate stands in, or set \
                 SHACKLETONGUE_LIB to the folder of its {NAME}",
                archive.display()
            ));
        }
    }
    println!("cargo:rustc-link-search=native={}", folder.display());
    println!("cargo:rustc-link-lib=static=shackletongue");
    Ok(())
}

fn var(name: &str) -> Result<OsString, String> {
    env::var_os(name).ok_or_else(|| format!("cargo has not set {name}: build the crate with cargo"))
}

/// The version that the library in this folder answers.
fn version(folder: &Path) -> Result<String, String> {
    let out = PathBuf::from(var("OUT_DIR")?);
    let (source, program) = (out.join("version.rs"), out.join("version"));
    fs::write(&source, ASKING).map_err(|error| format!("{}: {error}", source.display()))?;
    let mut compile = Command::new(var("RUSTC")?);
    compile.args(["--edition=2021", "--crate-name=version", "-o"]);
    compile.arg(&program).arg("-L").arg(native(folder));
    compile.args(["-l", "static=shackletongue"]).arg(&source);
    if let Some(linker) = env::var_os("RUSTC_LINKER") {
        let mut option = OsString::from("linker=");
        option.push(linker);
        compile.arg("-C").arg(option);
    }
    said(&mut compile).map_err(|error| {
        format!(
            "{} cannot be linked: run bindings/build anew, or set SHACKLETONGUE_LIB to the folder \
             of another {NAME}\n{error}",
            folder.join(NAME).display()
        )
    })?;
    let version = said(&mut Command::new(&program)).map_err(|error| {
        format!(
            "{} does not run on this machine: {error}",
            folder.join(NAME).display()
        )
    })?;
    Ok(version.trim().to_string())
}

fn native(folder: &Path) -> OsString {
    let mut option = OsString::from("native=");
    option.push(folder);
    option
}

/// What a command prints, or what it complains of.
fn said(command: &mut Command) -> Result<String, String> {
    let output = command.output().map_err(|error| error.to_string())?;
    if output.status.success() {
        Ok(String::from_utf8_lossy(&output.stdout).into_owned())
    } else {
        let complaint = String::from_utf8_lossy(&output.stderr);
        Err(format!("{}\n{complaint}", output.status))
    }
}
