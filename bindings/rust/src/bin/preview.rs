//! Draws a panel file as an SVG to be looked at: outlines filled, touches marked by the button that
//! they hit, refused shapes and those that are not consistent listed.
//!
//! The outlines stand in the picture in the file's own units and with every digit.

mod program;

use std::collections::BTreeMap;
use std::fmt::Write as _;
use std::process::ExitCode;

use program::{Outcome, Program, DONE, FAILED};
use shackletongue::{Button, Error, Panel, Point, Rect};

const HELP: &str = "\
preview: a panel's buttons and touches as an SVG to be looked at

usage: preview [FILE] > PICTURE

  FILE           the panel file; standard input where there is none, or -
  -h, --help     this text
  -V, --version  the versions of program and library

Each touch has the colour of the button that it hits. Refused shapes are listed; those
whose outline and touch area part company are hatched in red.

exit status: 0 the panel is drawn; 1 the file is refused; 2 wrong usage; 3 the file
cannot be read, or the picture cannot be written
";

/// The larger side of the panel in the picture, and the space round it.
const PANEL_SIDE: f64 = 760.0;
const MARGIN: f64 = 24.0;

/// A letter of the legend is hardly wider, so this much is kept for each.
const LETTER: f64 = 7.2;

/// The width that a touch's label may have; nearer to the right edge it stands to the left of its
/// mark.
const LABEL: f64 = 70.0;

/// More touches than this are small and have no labels.
const CROWD: usize = 200;

/// The height of a line of the legend, and how many lines of one kind it has at most.
const LINE: f64 = 19.0;
const MOST_LINES: usize = 32;

/// Farther out than any shape can be, touches are only listed.
const FARTHEST: f32 = 32768.0;

const NOWHERE: &str = "#777777";
const WARNING: &str = "#d00000";

const STYLE: &str = "text{font-family:sans-serif;font-size:13px}\
    .halo{stroke:#ffffff;stroke-width:3px;paint-order:stroke;font-size:12px}\
    .index{font-weight:bold;text-anchor:middle}\
    .head{font-weight:bold}";

/// How a button is drawn.
struct Drawing {
    index: usize,
    bounds: Rect,
    /// SVG path data; the bounds stand in for an outline that is not finite.
    data: String,
    /// Whether outline and touch area are consistent.
    consistent: bool,
}

/// What the picture shows.
struct Scene {
    title: String,
    drawings: Vec<Drawing>,
    refused: Vec<(usize, Error)>,
    touches: Vec<(Point, Option<usize>)>,
}

impl Scene {
    fn new(title: String, panel: Panel<'_>) -> Result<Scene, Error> {
        let (mut drawings, mut refused) = (Vec::new(), Vec::new());
        for (index, button) in panel.buttons().enumerate() {
            match draw(index, button) {
                Ok(drawing) => drawings.push(drawing),
                Err(error) => refused.push((index, error)),
            }
        }
        Ok(Scene {
            title,
            drawings,
            refused,
            touches: panel.touches().zip(panel.touch_all()?).collect(),
        })
    }

    /// The least box that holds all that is drawn.
    fn extent(&self) -> [f64; 4] {
        let corners = self
            .drawings
            .iter()
            .flat_map(|d| [d.bounds.min, d.bounds.max]);
        let touches = self.touches.iter().map(|(p, _)| *p).filter(|p| on_page(*p));
        let none = [f64::MAX, f64::MAX, f64::MIN, f64::MIN];
        let [a, b, c, d] = corners.chain(touches).fold(none, |[a, b, c, d], p| {
            let (x, y) = (f64::from(p.x), f64::from(p.y));
            [a.min(x), b.min(y), c.max(x), d.max(y)]
        });
        if a <= c {
            [a, b, c, d]
        } else {
            [0.0, 0.0, 1.0, 1.0]
        }
    }
}

fn on_page(p: Point) -> bool {
    p.x.abs() <= FARTHEST && p.y.abs() <= FARTHEST
}

fn draw(index: usize, button: Button) -> Result<Drawing, Error> {
    let shape = button.shape()?;
    let bounds = shape.bounds();
    let data = match shape.to_path()?.to_svg() {
        Err(Error::NotFinite { .. }) => {
            let Rect { min, max } = bounds;
            format!("M{} {}H{}V{}H{}Z", min.x, min.y, max.x, max.y, min.x)
        }
        data => data?,
    };
    Ok(Drawing {
        index,
        bounds,
        data,
        consistent: shape.is_consistent(),
    })
}

/// From the panel's units to the picture's.
struct Page {
    scale: f64,
    left: f64,
    top: f64,
    width: f64,
    height: f64,
}

impl Page {
    fn new([min_x, min_y, max_x, max_y]: [f64; 4]) -> Page {
        let (width, height) = (max_x - min_x, max_y - min_y);
        let scale = PANEL_SIDE / width.max(height).max(1e-3);
        Page {
            scale,
            left: 2.0 * MARGIN - min_x * scale,
            top: 2.0 * MARGIN - min_y * scale,
            width: width * scale + 2.0 * MARGIN,
            height: height * scale + 2.0 * MARGIN,
        }
    }

    fn place(&self, p: Point) -> (f64, f64) {
        (
            f64::from(p.x) * self.scale + self.left,
            f64::from(p.y) * self.scale + self.top,
        )
    }
}

/// A colour of its own for each button: turned by the golden angle, hues stay apart.
fn colour(index: usize, saturation: f64, lightness: f64) -> String {
    let hue = (40.0 + index as f64 * 137.508) % 360.0;
    let reach = saturation * lightness.min(1.0 - lightness);
    let channel = |n: f64| {
        let k = (n + hue / 30.0) % 12.0;
        let value = lightness - reach * (k - 3.0).min(9.0 - k).clamp(-1.0, 1.0);
        // between 0 and 255
        (value * 255.0).round() as u8
    };
    format!(
        "#{:02x}{:02x}{:02x}",
        channel(0.0),
        channel(8.0),
        channel(4.0)
    )
}

fn strong(target: Option<usize>) -> String {
    target.map_or(NOWHERE.to_string(), |index| colour(index, 0.85, 0.32))
}

fn named(target: Option<usize>) -> String {
    target.map_or("none".to_string(), |index| index.to_string())
}

fn number_of(error: Error) -> u32 {
    error.number().unwrap_or_default()
}

fn escaped(text: &str) -> String {
    text.replace('&', "&amp;")
        .replace('<', "&lt;")
        .replace('>', "&gt;")
}

/// The outlines, the last on top: a touch goes to what is seen there.
fn outlines(svg: &mut String, scene: &Scene, page: &Page) -> std::fmt::Result {
    writeln!(
        svg,
        r#"<g transform="translate({:.4} {:.4}) scale({:.6})" stroke-width="{:.6}" stroke-linejoin="round">"#,
        page.left,
        page.top,
        page.scale,
        1.6 / page.scale
    )?;
    for d in &scene.drawings {
        let (fill, stroke) = if d.consistent {
            (colour(d.index, 0.6, 0.82), colour(d.index, 0.6, 0.3))
        } else {
            ("url(#parts)".to_string(), WARNING.to_string())
        };
        writeln!(
            svg,
            r#"<path id="button{}" fill="{fill}" stroke="{stroke}" d="{}"/>"#,
            d.index, d.data
        )?;
    }
    writeln!(svg, "</g>")?;
    for d in &scene.drawings {
        let (left, top) = page.place(d.bounds.min);
        let (right, _) = page.place(d.bounds.max);
        let (fill, note) = if d.consistent {
            (colour(d.index, 0.6, 0.3), "")
        } else {
            (WARNING.to_string(), " parts company")
        };
        writeln!(
            svg,
            r#"<text class="halo index" fill="{fill}" x="{:.1}" y="{:.1}">{}{note}</text>"#,
            (left + right) / 2.0,
            top + 17.0,
            d.index
        )?;
    }
    Ok(())
}

/// A touch is a disc in the colour of its button, or a ring.
fn touches(svg: &mut String, scene: &Scene, page: &Page) -> std::fmt::Result {
    let crowded = scene.touches.len() > CROWD;
    for (number, (p, target)) in scene.touches.iter().enumerate() {
        if !on_page(*p) {
            continue;
        }
        let (x, y) = page.place(*p);
        let ink = strong(*target);
        let fill = if target.is_some() { &ink } else { "#ffffff" };
        writeln!(
            svg,
            r#"<circle cx="{x:.1}" cy="{y:.1}" r="{}" fill="{fill}" stroke="{}" stroke-width="1.5"/>"#,
            if crowded { 3 } else { 5 },
            if target.is_some() { "#ffffff" } else { &ink }
        )?;
        if crowded {
            continue;
        }
        let (x, anchor) = if x + LABEL < page.width {
            (x + 9.0, "start")
        } else {
            (x - 9.0, "end")
        };
        writeln!(
            svg,
            r#"<text class="halo" fill="{ink}" text-anchor="{anchor}" x="{x:.1}" y="{:.1}">t{number} → {}</text>"#,
            y + 4.0,
            named(*target)
        )?;
    }
    Ok(())
}

/// The lines of the legend, from the top down.
struct Legend {
    text: String,
    left: f64,
    right: f64,
    bottom: f64,
}

impl Legend {
    fn head(&mut self, text: &str) -> std::fmt::Result {
        if self.bottom > 2.0 * MARGIN {
            self.bottom += LINE / 2.0;
        }
        self.line("head", "#000000", text)
    }

    fn line(&mut self, class: &str, ink: &str, text: &str) -> std::fmt::Result {
        self.bottom += LINE;
        let right = self.left + LETTER * text.chars().count() as f64;
        self.right = self.right.max(right);
        writeln!(
            self.text,
            r#"<text class="{class}" fill="{ink}" x="{:.1}" y="{:.1}">{text}</text>"#,
            self.left, self.bottom
        )
    }

    /// A heading and at most so many entries; nothing where there are none.
    fn list(
        &mut self,
        head: &str,
        entries: impl ExactSizeIterator<Item = (String, String)>,
    ) -> std::fmt::Result {
        let more = entries.len().saturating_sub(MOST_LINES);
        if entries.len() > 0 {
            self.head(head)?;
        }
        for (ink, text) in entries.take(MOST_LINES) {
            self.line("entry", &ink, &text)?;
        }
        if more > 0 {
            self.line("entry", NOWHERE, &format!("and {more} more"))?;
        }
        Ok(())
    }
}

fn legend(scene: &Scene, page: &Page) -> Result<Legend, std::fmt::Error> {
    let left = page.width + 2.0 * MARGIN;
    let mut legend = Legend {
        text: String::new(),
        left,
        right: left,
        bottom: MARGIN,
    };
    legend.head(&escaped(&scene.title))?;
    let (made, refused) = (scene.drawings.len(), scene.refused.len());
    let counts = format!(
        "{} buttons, {} touches",
        made.saturating_add(refused),
        scene.touches.len()
    );
    legend.line("entry", "#000000", &counts)?;
    legend.line("entry", NOWHERE, "later buttons lie on top")?;
    let touches = scene.touches.iter().enumerate().map(|(number, (p, to))| {
        let whither = to.map_or("none".to_string(), |index| format!("button {index}"));
        let text = format!("t{number} at ({}, {}) → {whither}", p.x, p.y);
        (strong(*to), text)
    });
    legend.list("Touches", touches)?;
    let refused = scene.refused.iter().map(|(index, error)| {
        let text = format!("button {index}: refused {}", number_of(*error));
        (WARNING.to_string(), text)
    });
    legend.list("Refused shapes", refused)?;
    let reasons: BTreeMap<_, _> = scene
        .refused
        .iter()
        .map(|(_, error)| (number_of(*error), error.reason()))
        .collect();
    for (number, reason) in reasons {
        legend.line("entry", NOWHERE, &format!("{number}: {reason}"))?;
    }
    let apart: Vec<_> = scene.drawings.iter().filter(|d| !d.consistent).collect();
    let apart = apart
        .iter()
        .map(|d| (WARNING.to_string(), format!("button {}", d.index)));
    legend.list("Outline and touch area part company", apart)?;
    Ok(legend)
}

fn picture(scene: &Scene) -> Result<String, std::fmt::Error> {
    let page = Page::new(scene.extent());
    let legend = legend(scene, &page)?;
    let width = legend.right + MARGIN;
    let height = (page.height + 2.0 * MARGIN).max(legend.bottom + MARGIN);
    let mut svg = String::new();
    writeln!(
        svg,
        r#"<svg xmlns="http://www.w3.org/2000/svg" width="{width:.0}" height="{height:.0}" viewBox="0 0 {width:.0} {height:.0}">"#
    )?;
    writeln!(svg, "<style>{STYLE}</style>")?;
    writeln!(
        svg,
        r##"<defs><pattern id="parts" width="6" height="6" patternUnits="userSpaceOnUse" patternTransform="scale({:.6}) rotate(45)"><rect width="6" height="6" fill="#ffe5e5"/><rect width="2" height="6" fill="{WARNING}"/></pattern></defs>"##,
        1.0 / page.scale
    )?;
    writeln!(
        svg,
        r##"<rect width="100%" height="100%" fill="#ffffff"/>"##
    )?;
    writeln!(
        svg,
        r##"<rect x="{MARGIN}" y="{MARGIN}" width="{:.1}" height="{:.1}" rx="14" fill="#f5e9c8" stroke="#a8852f" stroke-width="2"/>"##,
        page.width, page.height
    )?;
    outlines(&mut svg, scene, &page)?;
    touches(&mut svg, scene, &page)?;
    svg.push_str(&legend.text);
    svg.push_str("</svg>\n");
    Ok(svg)
}

/// The picture of a panel; where there is no memory for it, a line that says so.
fn preview(panel: Panel<'_>, title: String) -> Outcome {
    let drawn = Scene::new(title, panel).and_then(|scene| {
        // Only a text that cannot grow refuses to be written to.
        picture(&scene).map_err(|_| Error::NoRoom)
    });
    match drawn {
        Ok(picture) => Outcome {
            picture: Some(picture),
            lines: Vec::new(),
            status: DONE,
        },
        Err(error) => Outcome {
            picture: None,
            lines: vec![format!("preview: {error}")],
            status: FAILED,
        },
    }
}

fn main() -> ExitCode {
    let program = Program {
        name: "preview",
        help: HELP,
        option: None,
    };
    program::run(&program, |panel, title, _| preview(panel, title))
}
