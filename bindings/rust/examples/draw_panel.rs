use shackletongue::{Panel, Record};

/// Draws each button of a panel as SVG path data, and says where each touch goes.
fn main() -> Result<(), Box<dyn std::error::Error>> {
    let named = std::env::args_os().nth(1);
    let file = std::fs::read(named.unwrap_or("samples/ringer.panel".into()))?;
    let panel = Panel::new(&file)?;
    for record in panel.records() {
        match record {
            // A shape may be refused, and the others are drawn all the same.
            Record::Button(button) => match button.shape().and_then(|s| s.to_path()?.to_svg()) {
                Ok(data) => println!("{data}"),
                Err(error) => println!("not drawn: {error}"),
            },
            Record::Touch(point) => println!("{point} goes to {:?}", panel.touch(point)),
        }
    }
    Ok(())
}
