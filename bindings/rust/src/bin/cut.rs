//! Turns a panel file into an SVG for a cutter's software: the outlines alone, in millimetres.

mod program;

use std::fmt::Write as _;
use std::process::ExitCode;

use program::{Outcome, Program, DONE, REFUSED};
use shackletongue::{Button, Error, Panel, Rect};

const HELP: &str = "\
cut: the outlines of a panel's buttons as an SVG in millimetres, for a cutter's software

usage: cut [--all] [FILE] > PICTURE

  FILE           the panel file; standard input where there is none, or -
  --all          draw every button that has an outline, and exit with 0
  -h, --help     this text
  -V, --version  the versions of program and library

A unit of the panel is a millimetre. The picture is as large as the bounds of what it
shows. A button whose shape is refused, or whose outline and touch area part company, is
left out and listed on standard error; the program inspect says more.

exit status: 0 every button is drawn; 1 the file is refused, a button is left out, or
there is nothing to draw and no picture; 2 wrong usage; 3 the file cannot be read, or
the picture cannot be written
";

/// The width of a line in millimetres: below the thousandth of an inch up to which cutters' drivers
/// follow a line and do not engrave it as an area.
const HAIRLINE: f32 = 0.01;

/// Most drivers cut what is red and engrave what is black.
const RED: &str = "#ff0000";

/// A button's outline.
struct Outline {
    data: String,
    extent: Rect,
}

/// What is to be cut of a panel.
#[derive(Default)]
struct Sheet {
    outlines: Vec<(usize, Outline)>,
    lines: Vec<String>,
    left_out: bool,
}

impl Sheet {
    fn new(panel: Panel<'_>, all: bool) -> Sheet {
        let mut sheet = Sheet::default();
        for (index, button) in panel.buttons().enumerate() {
            sheet.add(index, &button, all);
        }
        sheet
    }

    fn add(&mut self, index: usize, button: &Button, all: bool) {
        let apart = button.shape().is_ok_and(|shape| !shape.is_consistent());
        match outline(button) {
            Ok(outline) if !apart || all => {
                if apart {
                    self.lines.push(format!(
                        "button {index} is drawn, though outline and touch area part company; \
                         inspect says more"
                    ));
                }
                self.outlines.push((index, outline));
            }
            Ok(_) => self.leave_out(
                index,
                "outline and touch area part company; inspect says more, --all draws it",
            ),
            Err(Error::NotFinite { .. }) => self.leave_out(
                index,
                "its outline has a coordinate that is a NaN or infinite; inspect says more",
            ),
            Err(error) => {
                let number = error
                    .number()
                    .map_or(String::new(), |n| format!("refused {n}, "));
                self.leave_out(index, &format!("{number}{error}"));
            }
        }
    }

    fn leave_out(&mut self, index: usize, why: &str) {
        self.left_out = true;
        self.lines
            .push(format!("button {index} is left out: {why}"));
    }

    /// The least rectangle that holds all outlines.
    fn extent(&self) -> Option<Rect> {
        let extents = self.outlines.iter().map(|(_, outline)| outline.extent);
        extents.reduce(|all, one| all.union(one))
    }

    fn picture(&self) -> Result<String, std::fmt::Error> {
        let extent = self.extent().unwrap_or_default();
        let Rect { min, .. } = extent;
        // A picture without width or height is not drawn at all.
        let (width, height) = (extent.width().max(HAIRLINE), extent.height().max(HAIRLINE));
        let mut svg = String::from("<?xml version=\"1.0\" encoding=\"UTF-8\"?>\n");
        writeln!(
            svg,
            r#"<svg xmlns="http://www.w3.org/2000/svg" version="1.1" width="{width}mm" height="{height}mm" viewBox="{} {} {width} {height}">"#,
            min.x, min.y
        )?;
        for (index, Outline { data, .. }) in &self.outlines {
            writeln!(
                svg,
                r#"<path id="button{index}" fill="none" stroke="{RED}" stroke-width="{HAIRLINE}" d="{data}"/>"#
            )?;
        }
        svg.push_str("</svg>\n");
        Ok(svg)
    }
}

fn outline(button: &Button) -> Result<Outline, Error> {
    let path = button.shape()?.to_path()?;
    let bounds = button.bounds;
    Ok(Outline {
        data: path.to_svg()?,
        extent: match path.bounding_box() {
            Some(drawn) if !is_within(drawn, bounds) => bounds.union(drawn),
            _ => bounds,
        },
    })
}

/// Whether an outline goes over its bounds by no more than its line does, so that they are all that
/// is seen of it.
fn is_within(drawn: Rect, bounds: Rect) -> bool {
    let half = HAIRLINE / 2.0;
    let (low, high) = (bounds.min, bounds.max);
    let (min, max) = (drawn.min, drawn.max);
    low.x - half <= min.x
        && low.y - half <= min.y
        && max.x <= high.x + half
        && max.y <= high.y + half
}

fn cut(panel: Panel<'_>, all: bool) -> Outcome {
    let mut sheet = Sheet::new(panel, all);
    let picture = if sheet.outlines.is_empty() {
        let why = if sheet.left_out {
            "every button is left out"
        } else {
            "the panel has no buttons"
        };
        sheet
            .lines
            .push(format!("cut: there is nothing to draw: {why}"));
        None
    } else {
        sheet.picture().ok()
    };
    let done = picture.is_some() && (all || !sheet.left_out);
    Outcome {
        picture,
        lines: sheet.lines,
        status: if done { DONE } else { REFUSED },
    }
}

fn main() -> ExitCode {
    let program = Program {
        name: "cut",
        help: HELP,
        option: Some("--all"),
    };
    program::run(&program, |panel, _, all| cut(panel, all))
}
