//! usage: bench speed [NAME..]
//!        bench compare [NAME..]
//!        bench compare drawing [--minutes N] [--seed N] [--round N]
//!        bench measure [check | SHAPES [SEED]]

mod compare;
mod drawing;
mod library;
mod measure;
mod others;
mod scale;
mod speed;

fn main() {
    let words: Vec<String> = std::env::args().skip(1).collect();
    let words: Vec<&str> = words.iter().map(String::as_str).collect();
    match words[..] {
        ["speed", ref names @ ..] => {
            speed::head();
            speed::run(names);
            drawing::run(names);
        }
        ["compare", "drawing", ref options @ ..] => scale::run(options),
        ["compare", ref names @ ..] => compare::run(names),
        ["measure", ref options @ ..] => measure::run(options),
        _ => {
            eprintln!("usage: bench speed [NAME..] | compare [NAME..] | compare drawing [OPTION..] | measure [OPTION..]");
            std::process::exit(2);
        }
    }
}
