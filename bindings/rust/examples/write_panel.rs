//! `write_panel FILE` writes a panel file of six keys in two rows and a knob, with a touch on each,
//! and reads it back.
// of points and floats, which neither overflow nor divide by 0 to a panic
#![allow(clippy::arithmetic_side_effects)]

use std::error::Error;

use shackletongue::{Button, CornerRadii, Panel, PanelBuilder, Point, Rect, RoundSuperellipse};

/// Width and height of a key, and the space between two.
const KEY: Point = Point::new(40.0, 24.0);
const GAP: f32 = 6.0;

fn main() -> Result<(), Box<dyn Error>> {
    let Some(name) = std::env::args_os().nth(1) else {
        return Err("usage: write_panel FILE".into());
    };
    let mut buttons: Vec<Button> = Vec::new();
    for row in [0.0, 1.0] {
        for column in [0.0, 1.0, 2.0] {
            let min = Point::new(column * (KEY.x + GAP), row * (KEY.y + GAP));
            buttons.push(Button {
                bounds: Rect::new(min, min + KEY),
                radii: CornerRadii::uniform(8.0),
            });
        }
    }
    let knob = Rect::new((140.0, 0.0), (194.0, 54.0));
    buttons.push(Button {
        bounds: knob,
        radii: CornerRadii::uniform(knob.width() / 2.0),
    });

    let mut panel = PanelBuilder::new();
    for button in &buttons {
        // a file may hold any sizes: see first whether they are a shape that can be cut
        let shape = RoundSuperellipse::try_from(*button)?;
        if !shape.is_consistent() {
            return Err("outline and touch area of a button part company".into());
        }
        panel.add_button(*button)?;
    }
    for button in &buttons {
        panel.add_touch(button.bounds.center())?;
    }
    std::fs::write(&name, panel.as_bytes())?;

    let file = std::fs::read(&name)?;
    let panel = Panel::new(&file)?;
    let found: Vec<_> = panel.touch_all()?.into_iter().flatten().collect();
    println!("{} bytes; the touches go to {found:?}", file.len());
    Ok(())
}
