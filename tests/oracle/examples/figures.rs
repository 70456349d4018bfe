//! Writes the files of the figures to examples/directives.

use oracle::directives::figures::{FIGURES, FOLDER, Figure};
use std::fs;
use std::io::Result;
use std::path::Path;

fn main() -> Result<()> {
    for (name, bytes) in FIGURES.iter().flat_map(Figure::files) {
        fs::write(Path::new(FOLDER).join(name), bytes)?;
    }
    Ok(())
}
