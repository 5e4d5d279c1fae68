//! Answers for the original. KIND is floats, shapes, paths or panels.
//!
//! usage: oracle list KIND        what the program `replay_KIND` reads
//!        oracle answer KIND      what it must write, if such a text comes on standard input
//!        oracle fascia           the report on the panel file on standard input
//!        oracle fascia-native    the same on the platform's functions, for comparison of speed
//!        oracle inspect          of each shape of the panel file whether it is consistent
//!        oracle largest-panel    a panel file of 630 shapes and 2,730 touches
//!        oracle overlapping-panel    the same, the shapes one over the other

use std::io::{self, BufRead, Read, Write};

use oracle::{native, panel, panel_files, shapes, stream, words};

mod float_answers;
mod float_list;
mod kept_lists;
mod outline_lists;
mod path_answers;
mod path_lists;

fn print_lines(out: &mut impl Write, lines: Vec<String>) -> io::Result<()> {
    for line in lines {
        writeln!(out, "{line}")?;
    }
    Ok(())
}

/// The answer to each line of standard input by itself.
fn print_answers(out: &mut impl Write, answer: fn(&[u8]) -> Option<String>) -> io::Result<()> {
    for line in io::stdin().lock().split(b'\n') {
        if let Some(text) = answer(&line?) {
            writeln!(out, "{text}")?;
        }
    }
    Ok(())
}

fn print_path_answers(out: &mut impl Write) -> io::Result<()> {
    let mut replay = path_answers::Replay::new();
    for (i, line) in io::stdin().lock().split(b'\n').enumerate() {
        let good = replay.line(&line?);
        print_lines(out, std::mem::take(&mut replay.out))?;
        if good.is_none() {
            return writeln!(out, "bad line {}", i + 1);
        }
    }
    replay.end_stream();
    print_lines(out, replay.out)
}

/// All of standard input.
fn input() -> io::Result<Vec<u8>> {
    let mut bytes = Vec::new();
    io::stdin().lock().read_to_end(&mut bytes)?;
    Ok(bytes)
}

fn main() -> io::Result<()> {
    let mut out = io::BufWriter::new(io::stdout().lock());
    let words: Vec<String> = std::env::args().skip(1).collect();
    match words.iter().map(String::as_str).collect::<Vec<_>>()[..] {
        ["list", "floats"] => print_lines(&mut out, float_list::lines()),
        ["answer", "floats"] => print_answers(&mut out, float_answers::answer),
        ["list", "shapes"] => print_lines(&mut out, shapes::lines()),
        ["answer", "shapes"] => print_answers(&mut out, shapes::answer),
        ["list", "paths"] => print_lines(&mut out, path_lists::lines()),
        ["answer", "paths"] => print_path_answers(&mut out),
        ["list", "panels"] => print_lines(&mut out, panel_files::lines()),
        ["answer", "panels"] => print_lines(&mut out, panel_files::reports(&input()?)),
        ["fascia"] => print_lines(&mut out, panel::report(&input()?)),
        ["fascia-native"] => print_lines(&mut out, native::panel::report(&input()?)),
        ["inspect"] => print_lines(&mut out, panel::consistency_report(&input()?)),
        ["largest-panel"] => out.write_all(&panel_files::largest()),
        ["overlapping-panel"] => out.write_all(&panel_files::overlapping()),
        _ => {
            eprintln!("usage: oracle list KIND | answer KIND");
            eprintln!("       oracle fascia | fascia-native | inspect | largest-panel | overlapping-panel");
            eprintln!("KIND is floats, shapes, paths or panels");
            std::process::exit(2);
        }
    }?;
    out.flush()
}
