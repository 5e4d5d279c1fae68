//! What the crate's programs have in common: words, statuses, reading a panel file, writing a
//! picture. Nothing here panics; a sentence that cannot be said is dropped.

use std::ffi::{OsStr, OsString};
use std::fs::File;
use std::io::{self, ErrorKind, Read, Write};
use std::path::PathBuf;
use std::process::ExitCode;

use shackletongue::Panel;

/// The exit statuses.
pub const DONE: u8 = 0;
pub const REFUSED: u8 = 1;
const USAGE: u8 = 2;
pub const FAILED: u8 = 3;

/// One byte more than the longest panel file has: what follows cannot change the answer.
const MOST_BYTES: u64 = 65_537;

/// A program that turns a panel file into a picture.
pub struct Program {
    pub name: &'static str,
    pub help: &'static str,
    /// The option that it has beside `--help` and `--version`.
    pub option: Option<&'static str>,
}

/// What a program makes of a panel: a picture, lines for standard error, and its status.
pub struct Outcome {
    pub picture: Option<String>,
    pub lines: Vec<String>,
    pub status: u8,
}

/// Why there is no picture: a status and one sentence.
struct Refusal(u8, String);

enum Asked {
    /// A text, on standard output.
    Text(String),
    Picture {
        source: Source,
        option: bool,
    },
}

enum Source {
    StandardInput,
    Named(PathBuf),
}

impl Source {
    fn name(&self) -> String {
        match self {
            Source::StandardInput => "standard input".to_string(),
            Source::Named(path) => plain(path.as_os_str()),
        }
    }

    /// The file's own name, without its folders.
    fn title(&self) -> String {
        match self {
            Source::StandardInput => self.name(),
            Source::Named(path) => plain(path.file_name().unwrap_or(path.as_os_str())),
        }
    }

    fn read(&self) -> io::Result<Vec<u8>> {
        let mut file = Vec::new();
        match self {
            Source::StandardInput => io::stdin().take(MOST_BYTES).read_to_end(&mut file),
            Source::Named(path) => File::open(path)?.take(MOST_BYTES).read_to_end(&mut file),
        }?;
        Ok(file)
    }
}

/// A text without control characters, which neither a terminal nor XML takes as they are.
fn plain(text: &OsStr) -> String {
    let mut plain = String::new();
    for c in text.to_string_lossy().chars() {
        if c.is_control() || matches!(c, '\u{fffe}' | '\u{ffff}') {
            plain.extend(c.escape_default());
        } else {
            plain.push(c);
        }
    }
    plain
}

/// What the system says, in a few plain words.
fn why(error: &io::Error) -> String {
    match error.kind() {
        ErrorKind::NotFound | ErrorKind::NotADirectory => "there is no such file".to_string(),
        ErrorKind::PermissionDenied => "permission is denied".to_string(),
        ErrorKind::IsADirectory => "it is a directory".to_string(),
        ErrorKind::StorageFull => "the disk is full".to_string(),
        ErrorKind::BrokenPipe => "nobody reads it any more".to_string(),
        _ => {
            let text = error.to_string();
            let end = text.find(" (os error").unwrap_or(text.len());
            text.chars().take(end).collect()
        }
    }
}

/// Runs the program on the arguments that it was called with; `draw` is given the panel, its title
/// and whether the program's own option was said.
pub fn run(program: &Program, draw: impl FnOnce(Panel<'_>, String, bool) -> Outcome) -> ExitCode {
    let status = ended(program, draw).unwrap_or_else(|Refusal(status, sentence)| {
        say(&format!("{}: {sentence}", program.name));
        status
    });
    ExitCode::from(status)
}

fn ended(
    program: &Program,
    draw: impl FnOnce(Panel<'_>, String, bool) -> Outcome,
) -> Result<u8, Refusal> {
    let (source, option) = match asked(program, std::env::args_os().skip(1))? {
        Asked::Text(text) => return write(&text).map(|()| DONE),
        Asked::Picture { source, option } => (source, option),
    };
    let file = source.read().map_err(|error| {
        let sentence = format!("cannot read {}: {}", source.name(), why(&error));
        Refusal(FAILED, sentence)
    })?;
    let panel = Panel::new(&file).map_err(|error| {
        let number = error.number().unwrap_or_default();
        let sentence = format!("{}: refused {number}, {error}", source.name());
        Refusal(REFUSED, sentence)
    })?;
    let outcome = draw(panel, source.title(), option);
    for line in &outcome.lines {
        say(line);
    }
    if let Some(picture) = &outcome.picture {
        write(picture)?;
    }
    Ok(outcome.status)
}

fn asked(program: &Program, words: impl Iterator<Item = OsString>) -> Result<Asked, Refusal> {
    let usage = |sentence: String| {
        let hint = format!("{sentence}; `{} --help` says what it takes", program.name);
        Refusal(USAGE, hint)
    };
    let (mut source, mut option, mut options_ended) = (None, false, false);
    for word in words {
        let text = word.to_string_lossy().into_owned();
        if !options_ended && text.len() > 1 && text.starts_with('-') {
            match text.as_str() {
                "--" => options_ended = true,
                "--help" | "-h" => return Ok(Asked::Text(program.help.to_string())),
                "--version" | "-V" => return Ok(Asked::Text(version(program))),
                own if Some(own) == program.option => option = true,
                _ => return Err(usage(format!("there is no option {}", plain(&word)))),
            }
        } else if source.is_some() {
            let sentence = format!("it takes one file and was also given {}", plain(&word));
            return Err(usage(sentence));
        } else if text == "-" && !options_ended {
            source = Some(Source::StandardInput);
        } else {
            source = Some(Source::Named(PathBuf::from(word)));
        }
    }
    Ok(Asked::Picture {
        source: source.unwrap_or(Source::StandardInput),
        option,
    })
}

fn version(program: &Program) -> String {
    let crate_version = env!("CARGO_PKG_VERSION");
    let library = shackletongue::version();
    format!("{} {crate_version}, library {library}\n", program.name)
}

/// Writes a text to standard output, whole.
fn write(text: &str) -> Result<(), Refusal> {
    let mut out = io::stdout().lock();
    out.write_all(text.as_bytes())
        .and_then(|()| out.flush())
        .map_err(|error| {
            let sentence = format!("cannot write to standard output: {}", why(&error));
            Refusal(FAILED, sentence)
        })
}

/// A line on standard error.
fn say(line: &str) {
    // There is nowhere else to say that it cannot be said.
    let _ = writeln!(io::stderr(), "{line}");
}
