//! Draws the pictures of README and docs from the second program's figures and from crates.txt: `draw DIR` writes them into DIR. Links no archive.

#[path = "../answers.rs"]
#[allow(dead_code)]
mod answers;
#[path = "../drawing/mod.rs"]
mod drawing;
#[path = "../paper.rs"]
#[allow(dead_code)]
mod paper;
#[path = "../stage.rs"]
mod stage;
#[path = "../taking.rs"]
#[allow(dead_code)]
mod taking;

use drawing::{house, loss, ring, session};

fn main() -> std::io::Result<()> {
    let folder = std::env::args().nth(1).expect("draw DIR");
    std::fs::create_dir_all(&folder)?;
    for (name, sheet) in [("session", session::drawn()), ("loss", loss::drawn()), ("ring", ring::drawn()), ("crates", house::drawn()?)] {
        std::fs::write(format!("{folder}/{name}.svg"), sheet.written())?;
    }
    println!("draw: session, loss, ring and crates");
    Ok(())
}
