//! Draws the pictures of README.md, docs/GUIDE.md and docs/HOSTS.md into a folder: `figures docs/figures`. Every number, letter
//! and order in them is asked of the reference, over tables that were built by edits.
//!
//! In the pictures of the README and of the guide a vertex is a pole, an edge a strip and a dart an end of a strip; those of
//! HOSTS.md say vertex, edge and dart, as the header does.

mod plane;
mod poles;
mod shells;
mod strips;
mod svg;
mod tables;
mod words;

use std::path::PathBuf;
use std::{env, fs, io};
use svg::Picture;

/// Draws one picture.
type Draw = fn() -> Picture;

const FIGURES: [(&str, Draw); 16] = [
    ("strips", strips::strips),
    ("ends", poles::ends),
    ("corners", poles::corners),
    ("placing", poles::placing),
    ("steps", strips::steps),
    ("crossings", strips::crossings),
    ("half-length", strips::half_length),
    ("dome-ends", shells::dome_ends),
    ("dome", shells::dome),
    ("dome-steps", shells::dome_steps),
    ("closing", shells::closing),
    ("tent", shells::tent),
    ("pavilion", shells::pavilion_ribbons),
    ("table", words::table),
    ("float-path", words::path),
    ("whole-path", words::rope),
];

fn main() -> io::Result<()> {
    let folder = PathBuf::from(env::args().nth(1).expect("the folder to draw into"));
    fs::create_dir_all(&folder)?;
    for (name, draw) in FIGURES {
        fs::write(folder.join(name).with_extension("svg"), draw().written())?;
    }
    Ok(())
}
