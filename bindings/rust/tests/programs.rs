//! The programs, run as a user runs them.
#![allow(
    clippy::unwrap_used,
    clippy::indexing_slicing,
    clippy::arithmetic_side_effects
)]

mod stored;

use std::ffi::OsStr;
use std::fmt::Write as _;
use std::fs::{self, File};
use std::io::Write as _;
use std::os::unix::ffi::OsStrExt;
use std::path::{Path, PathBuf};
use std::process::{Command, Output, Stdio};

use shackletongue::{Button, CornerRadii, Panel, PanelBuilder, PathBuilder, Point, Rect, Segment};

const CUT: &str = env!("CARGO_BIN_EXE_cut");
const PREVIEW: &str = env!("CARGO_BIN_EXE_preview");

/// What a program answers to these words and this standard input.
fn run(program: &str, words: &[&OsStr], file: &[u8]) -> Output {
    let mut child = Command::new(program)
        .args(words)
        .stdin(Stdio::piped())
        .stdout(Stdio::piped())
        .stderr(Stdio::piped())
        .spawn()
        .unwrap();
    // it may end without reading
    let _ = child.stdin.take().unwrap().write_all(file);
    child.wait_with_output().unwrap()
}

fn run_on(program: &str, words: &[&str], file: &[u8]) -> (i32, String, String) {
    let words: Vec<_> = words.iter().map(OsStr::new).collect();
    let output = run(program, &words, file);
    (
        output.status.code().unwrap(),
        String::from_utf8(output.stdout).unwrap(),
        String::from_utf8(output.stderr).unwrap(),
    )
}

fn button(min: (f32, f32), max: (f32, f32), radius: f32) -> Button {
    Button {
        bounds: Rect::new(min, max),
        radii: CornerRadii::uniform(radius),
    }
}

/// A good button, one that is refused, one that parts company, and one whose outline is not finite.
fn four_buttons() -> Vec<u8> {
    let mut panel = PanelBuilder::new();
    panel
        .add_button(button((0.5, 1.0), (20.0, 11.25), 3.0))
        .unwrap();
    panel
        .add_button(button((30.0, 0.0), (20.0, 10.0), 3.0))
        .unwrap();
    panel.add_button(apart()).unwrap();
    panel.add_button(not_finite()).unwrap();
    panel.add_touch((1.0, 1.0)).unwrap();
    panel.into_bytes()
}

fn apart() -> Button {
    Button {
        bounds: Rect::new((1.9, 0.0), (11.9, 10.0)),
        radii: CornerRadii {
            top_right: Point::new(0.3, 0.0),
            ..CornerRadii::default()
        },
    }
}

/// Sides so long beside the radius that the outline has a NaN.
fn not_finite() -> Button {
    button((0.0, 0.0), (8666.0, 8666.0), 0.0011)
}

/// A button's outline as SVG path data, written independently of the crate's own.
fn data(button: &Button) -> String {
    let mut path = PathBuilder::new();
    path.add(&button.shape().unwrap()).unwrap();
    let mut data = String::new();
    for segment in path.segments() {
        let (letter, points) = match segment {
            Segment::Move(p) => ("M", vec![p]),
            Segment::Line(p) => ("L", vec![p]),
            Segment::Quad(c, p) => ("Q", vec![c, p]),
            Segment::Cubic(c, d, p) => ("C", vec![c, d, p]),
            Segment::Close => ("Z", vec![]),
        };
        let floats: Vec<_> = points.iter().flat_map(|p| [p.x, p.y]).collect();
        let words: Vec<_> = floats.iter().map(ToString::to_string).collect();
        for (word, float) in words.iter().zip(&floats) {
            assert_eq!(word.parse::<f32>().unwrap().to_bits(), float.to_bits());
        }
        write!(data, "{letter}{}", words.join(" ")).unwrap();
    }
    data
}

/// The ids and the data of the paths that `cut` has drawn, and its head.
fn drawn(svg: &str) -> (Vec<(String, String)>, Vec<String>) {
    let attribute = |line: &str, name: &str| {
        let from = line.find(&format!(" {name}=\"")).unwrap() + name.len() + 3;
        let len = line[from..].find('"').unwrap();
        line[from..from + len].to_string()
    };
    let head = svg.lines().nth(1).unwrap();
    let head = ["width", "height", "viewBox"].map(|name| attribute(head, name));
    let paths = svg.lines().filter(|line| line.starts_with("<path"));
    let paths = paths.map(|line| {
        assert_eq!(attribute(line, "fill"), "none");
        assert_eq!(attribute(line, "stroke-width"), "0.01");
        (attribute(line, "id"), attribute(line, "d"))
    });
    (paths.collect(), head.to_vec())
}

#[test]
fn cut_draws_the_outlines_alone() {
    let mut panel = PanelBuilder::new();
    let buttons = [
        button((0.5, 1.0), (20.0, 11.25), 3.0),
        button((-2.25, 3.0), (8.0, 9.0), 2.5),
    ];
    for button in buttons {
        panel.add_button(button).unwrap();
    }
    let (status, svg, said) = run_on(CUT, &[], panel.as_bytes());
    assert_eq!((status, said.as_str()), (0, ""));
    let (paths, head) = drawn(&svg);
    assert_eq!(paths[0], ("button0".to_string(), data(&buttons[0])));
    assert_eq!(paths[1], ("button1".to_string(), data(&buttons[1])));
    assert_eq!(paths.len(), 2);
    assert_eq!(head, ["22.25mm", "10.25mm", "-2.25 1 22.25 10.25"]);
}

#[test]
fn cut_leaves_out_what_cannot_be_cut() {
    let file = four_buttons();
    assert!(!not_finite()
        .shape()
        .unwrap()
        .to_path()
        .unwrap()
        .path()
        .is_finite());
    let (status, svg, said) = run_on(CUT, &[], &file);
    assert_eq!(status, 1);
    let (paths, head) = drawn(&svg);
    assert_eq!(paths.len(), 1);
    assert_eq!(head, ["19.5mm", "10.25mm", "0.5 1 19.5 10.25"]);
    let lines: Vec<_> = said.lines().collect();
    assert_eq!(lines.len(), 3);
    assert!(lines[0].starts_with("button 1 is left out: refused 4, "));
    assert!(lines[1].starts_with("button 2 is left out: outline and touch area part company"));
    assert!(lines[2].starts_with("button 3 is left out: its outline has a coordinate"));

    let (status, svg, said) = run_on(CUT, &["--all"], &file);
    assert_eq!(status, 0);
    let (paths, _) = drawn(&svg);
    assert_eq!(paths.len(), 2);
    assert_eq!(paths[1], ("button2".to_string(), data(&apart())));
    let lines: Vec<_> = said.lines().collect();
    assert_eq!(lines.len(), 3);
    assert!(lines[1].starts_with("button 2 is drawn, though"));
}

#[test]
fn cut_draws_nothing_of_nothing() {
    let touches = [[8, 0, 2, 0].as_slice(), &[0; 8]].concat();
    for file in [&[][..], &touches] {
        for words in [&[][..], &["--all"]] {
            let (status, svg, said) = run_on(CUT, words, file);
            assert_eq!((status, svg.as_str()), (1, ""));
            assert_eq!(
                said,
                "cut: there is nothing to draw: the panel has no buttons\n"
            );
        }
    }
    let refused = button((0.0, 0.0), (-1.0, 1.0), 0.0).to_bytes();
    let (status, svg, said) = run_on(CUT, &["--all"], &refused);
    assert_eq!((status, svg.as_str()), (1, ""));
    assert_eq!(said.lines().count(), 2);
}

/// A line has no height, and a picture without height would not be shown.
#[test]
fn cut_gives_a_line_the_height_of_a_hairline() {
    let line = button((1.0, 2.0), (5.0, 2.0), 0.0).to_bytes();
    let (_, svg, _) = run_on(CUT, &["--all"], &line);
    let (_, head) = drawn(&svg);
    assert_eq!(head, ["4mm", "0.01mm", "1 2 4 0.01"]);
}

/// A folder for pictures, which `bindings/rust/check` reads with an XML parser.
fn pictures(kind: &str) -> PathBuf {
    let folder = Path::new(env!("CARGO_TARGET_TMPDIR")).join("pictures");
    fs::create_dir_all(&folder).unwrap();
    for entry in fs::read_dir(&folder).unwrap() {
        let old = entry.unwrap().path();
        if old.file_name().unwrap().to_string_lossy().starts_with(kind) {
            fs::remove_file(old).unwrap();
        }
    }
    folder
}

#[test]
fn every_stored_panel_is_seen() {
    let folder = pictures("preview");
    for (number, (file, _)) in stored::panels().into_iter().enumerate() {
        let (status, svg, said) = run_on(PREVIEW, &["-"], &file);
        if Panel::new(&file).is_ok() {
            assert_eq!((status, said.as_str()), (0, ""));
            fs::write(folder.join(format!("preview{number}.svg")), svg).unwrap();
        } else {
            assert_eq!((status, svg.as_str()), (1, ""));
            assert!(
                said.starts_with("preview: standard input: refused 7, "),
                "{said}"
            );
        }
    }
}

/// Whatever a file is called, its name becomes text.
#[test]
fn every_name_is_a_title() {
    let folder = pictures("name");
    let names: [&[u8]; 12] = [
        b"a<b>&\"'&amp;.panel",
        b"]]>--><script>alert(1)<\\script>",
        b"\x01\x02\x08\x0b\x0c\x0e\x1f\x7f",
        b"\x1b[31mred\x1b[0m",
        b"two\nlines\rand\ta tab",
        "\u{80}\u{85}\u{9f}\u{2028}\u{2029}\u{feff}".as_bytes(),
        "\u{fffe}\u{ffff}\u{fffd}\u{1ffff}".as_bytes(),
        b"\xff\xfe\x80\xc0",
        b"\xed\xa0\x80\xed\xbf\xbf",
        b"&#0;&#x1;&nosuch;%s%n",
        b"-",
        &[b'n'; 255],
    ];
    let home = Path::new(env!("CARGO_TARGET_TMPDIR")).join("names");
    fs::create_dir_all(&home).unwrap();
    for (number, name) in names.into_iter().enumerate() {
        let file = home.join(OsStr::from_bytes(name));
        fs::write(&file, four_buttons()).unwrap();
        for (program, kind, status) in [(PREVIEW, "preview", 0), (CUT, "cut", 1)] {
            let output = run(program, &[file.as_os_str()], &[]);
            assert_eq!(output.status.code(), Some(status));
            let svg = String::from_utf8(output.stdout).unwrap();
            assert!(svg.chars().all(|c| c == '\n' || !c.is_control()), "{svg}");
            let said = String::from_utf8(output.stderr).unwrap();
            assert!(said.chars().all(|c| c == '\n' || !c.is_control()), "{said}");
            fs::write(folder.join(format!("name{number}_{kind}.svg")), svg).unwrap();
        }
    }
    let missing = run(CUT, &[OsStr::from_bytes(b"no\x1b[31m\nsuch\xff")], &[]);
    let said = String::from_utf8(missing.stderr).unwrap();
    let shown = "no\\u{1b}[31m\\nsuch\u{fffd}";
    assert_eq!(
        said,
        format!("cut: cannot read {shown}: there is no such file\n")
    );
}

#[test]
fn every_stored_panel_is_cut() {
    let folder = pictures("cut");
    for (number, (file, _)) in stored::panels().into_iter().enumerate() {
        for (words, kind) in [(&[][..], "some"), (&["--all"], "all")] {
            let (status, svg, said) = run_on(CUT, words, &file);
            let Ok(panel) = Panel::new(&file) else {
                assert_eq!((status, svg.as_str()), (1, ""));
                assert!(
                    said.starts_with("cut: standard input: refused 7, "),
                    "{said}"
                );
                continue;
            };
            let mut expected = Vec::new();
            let mut listed = 0;
            for (index, button) in panel.buttons().enumerate() {
                let shape = button.shape();
                let good = shape.is_ok_and(|shape| shape.is_consistent());
                listed += usize::from(!good);
                let drawn = shape.is_ok_and(|shape| shape.to_path().unwrap().path().is_finite());
                if drawn && (good || !words.is_empty()) {
                    expected.push((format!("button{index}"), data(&button)));
                }
            }
            if expected.is_empty() {
                assert_eq!((status, svg.as_str()), (1, ""));
                listed += 1;
            } else {
                assert_eq!(drawn(&svg).0, expected);
                assert_eq!(status, i32::from(listed > 0 && words.is_empty()));
                fs::write(folder.join(format!("cut{number}_{kind}.svg")), svg).unwrap();
            }
            assert_eq!(said.lines().count(), listed);
        }
    }
}

#[test]
fn the_picture_is_the_stored_one() {
    let (status, svg, said) = run_on(PREVIEW, &["../../samples/ringer.panel"], &[]);
    assert_eq!((status, said.as_str()), (0, ""));
    let stored = fs::read_to_string("../../docs/ringer.svg").unwrap();
    assert!(svg == stored, "preview draws another picture");
}

#[test]
fn both_take_words_alike() {
    let file = button((0.0, 0.0), (4.0, 4.0), 1.0).to_bytes();
    let sample = "../../samples/ringer.panel";
    for (program, name) in [(CUT, "cut"), (PREVIEW, "preview")] {
        let said = |words: &[&str], file: &[u8]| run_on(program, words, file);
        for help in ["--help", "-h"] {
            let (status, text, errors) = said(&[help], &[]);
            assert!(text.starts_with(&format!("{name}: ")) && text.contains("exit status: 0"));
            assert_eq!((status, errors.as_str()), (0, ""));
        }
        let version = format!("{name} {}, library 2\n", env!("CARGO_PKG_VERSION"));
        for word in ["--version", "-V"] {
            assert_eq!(said(&[word], &[]), (0, version.clone(), String::new()));
        }
        let drawn = said(&[], &file);
        assert_eq!(drawn.0, 0);
        assert_eq!(said(&["-"], &file), drawn);
        assert_eq!(said(&["--"], &file), drawn);
        assert_eq!(said(&["--", sample], &[]), said(&[sample], &file));

        let usage = [
            (&["--no"][..], "there is no option --no"),
            (&["-a", "-"], "there is no option -a"),
            (&["-\u{7}"], "there is no option -\\u{7}"),
            (&[sample, "-"], "it takes one file and was also given -"),
        ];
        for (words, why) in usage {
            let (status, text, errors) = said(words, &file);
            assert_eq!((status, text.as_str()), (2, ""));
            assert_eq!(
                errors,
                format!("{name}: {why}; `{name} --help` says what it takes\n")
            );
        }
        let unreadable = [
            ("no/such.panel", "there is no such file"),
            ("src", "it is a directory"),
            ("", "there is no such file"),
            ("Cargo.toml/x", "there is no such file"),
        ];
        for (file, why) in unreadable {
            let (status, text, errors) = said(&[file], &[]);
            assert_eq!((status, text.as_str()), (3, ""));
            assert_eq!(errors, format!("{name}: cannot read {file}: {why}\n"));
        }
        let (status, text, errors) = said(&["Cargo.toml"], &[]);
        assert_eq!((status, text.as_str()), (1, ""));
        assert!(errors.starts_with(&format!("{name}: Cargo.toml: refused 7, ")));
        // endless input is not read to its end
        let (status, ..) = said(&["/dev/zero"], &[]);
        assert_eq!(status, 1);
    }
}

#[test]
fn what_cannot_be_written_is_said() {
    let full = || File::options().write(true).open("/dev/full").unwrap();
    for (program, name) in [(CUT, "cut"), (PREVIEW, "preview")] {
        for word in ["../../samples/ringer.panel", "--help", "--version"] {
            let output = Command::new(program)
                .arg(word)
                .stdout(full())
                .output()
                .unwrap();
            assert_eq!(output.status.code(), Some(3));
            let said = String::from_utf8(output.stderr).unwrap();
            let last = said.lines().last().unwrap();
            assert_eq!(
                last,
                format!("{name}: cannot write to standard output: the disk is full")
            );
        }
        // nor does a full standard error end it otherwise
        let child = Command::new(program).arg("no/such").stderr(full()).output();
        assert_eq!(child.unwrap().status.code(), Some(3));
    }
    let sample = "../../samples/ringer.panel";
    let child = Command::new(CUT)
        .arg(sample)
        .stderr(full())
        .output()
        .unwrap();
    assert_eq!(child.status.code(), Some(1));
    assert!(child.stdout.ends_with(b"</svg>\n"));
}
