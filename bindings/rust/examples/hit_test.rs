//! Says which button of a panel a touch goes to: `hit_test FILE` of each touch of the file,
//! `hit_test FILE X Y` of a touch at (X, Y).

use std::error::Error;

use shackletongue::{Panel, Point};

fn main() -> Result<(), Box<dyn Error>> {
    let words: Vec<String> = std::env::args_os()
        .skip(1)
        .map(|word| word.to_string_lossy().into_owned())
        .collect();
    match words.as_slice() {
        [file] => {
            let file = std::fs::read(file)?;
            let panel = Panel::new(&file)?;
            // all at once: each shape is solved once
            for (point, index) in panel.touches().zip(panel.touch_all()?) {
                say(point, index);
            }
        }
        [file, x, y] => {
            let file = std::fs::read(file)?;
            let point = Point::new(x.parse()?, y.parse()?);
            say(point, Panel::new(&file)?.touch(point));
        }
        _ => return Err("usage: hit_test FILE [X Y]".into()),
    }
    Ok(())
}

fn say(point: Point, index: Option<usize>) {
    match index {
        Some(index) => println!("{point} is on button {index}"),
        None => println!("{point} is on no button"),
    }
}
