//! What the binary reads: standard input, and files by their names.

use crate::text::{self, Text};
use std::io::Read;

/// The name that stands for standard input.
const STANDARD_INPUT: &str = "-";

pub fn standard_input() -> Result<Vec<u8>, String> {
    let mut bytes = Vec::new();
    let mut standard_input = std::io::stdin().lock();
    match standard_input.read_to_end(&mut bytes) {
        Ok(_) => Ok(bytes),
        Err(error) => Err(error.to_string()),
    }
}

/// Reads the text form from a file. What is wrong is told with the file's name.
pub fn text(file: &str) -> Result<Text, String> {
    let in_file = |what: String| format!("{file}: {what}");
    let bytes = match file {
        STANDARD_INPUT => standard_input(),
        _ => std::fs::read(file).map_err(|error| error.to_string()),
    };
    let text = String::from_utf8(bytes.map_err(in_file)?);
    let text = text.map_err(|_| in_file("not a text in UTF-8".to_string()))?;
    text::read(&text).map_err(in_file)
}
