//! Paths in words.

use super::line::{Fault, Line};
use crate::layout;
use hpf_remap::formats::{STEP, word_at};

/// The vertices on the rest of the mark's line, and on the lines behind it.
pub fn read<'t>(lines: impl Iterator<Item = Line<'t>>) -> Result<Vec<u8>, Fault> {
    let mut bytes: Vec<u8> = Vec::new();
    for mut line in lines {
        while line.peek().is_some() {
            if !bytes.len().is_multiple_of(STEP) {
                return Err(line.here().fault("nothing follows the last byte"));
            }
            if line.has("byte") {
                bytes.push(line.byte("a byte")?);
            } else {
                bytes.extend(line.two_bytes("a vertex")?.to_le_bytes());
            }
        }
    }
    Ok(bytes)
}

/// The text behind the first word of the mark.
pub fn text(bytes: &[u8]) -> String {
    let vertices = bytes.chunks_exact(STEP);
    let odd = vertices.remainder().first();
    let mut words: Vec<String> = vertices
        .filter_map(|step| word_at(step, 0))
        .map(|vertex| vertex.to_string())
        .collect();
    words.extend(odd.map(|byte| format!("byte {byte}")));
    format!("path\n{}", layout::filled(&words, layout::COLUMNS))
}
