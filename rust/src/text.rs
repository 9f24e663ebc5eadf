//! Gate lists as text: a line a gate.

use crate::calls::c;
use crate::{Refusal, Shape};

/// Writes the text of a list, one line a gate, and returns the number of characters written.
pub fn write_text(shape: Shape, table: &[u32], output: &mut [u8]) -> Result<usize, Refusal> {
    c::jugy_write_text(shape, table, output).map(|[_, _, characters]| characters)
}

/// Reads a text as a list for a shape, and returns how many numbers were written, four a line.
pub fn read_text(shape: Shape, text: &[u8], output: &mut [u32]) -> Result<usize, Refusal> {
    c::jugy_read_text(shape, text, output).map(|[_, _, numbers]| numbers)
}

/// Enough for any line: four numbers of up to ten digits, three spaces and a line feed.
const LINE: usize = 44;

/// The text of a list, as a string.
pub fn text(shape: Shape, table: &[u32]) -> Result<String, Refusal> {
    let mut output = vec![0; LINE * (table.len() / 4)];
    let length = write_text(shape, table, &mut output)?;
    output.truncate(length);
    Ok(output.into_iter().map(char::from).collect())
}

/// The list of a text, as a vector of four numbers a gate.
pub fn list_of_text(shape: Shape, text: &str) -> Result<Vec<u32>, Refusal> {
    let mut output = vec![0; 4 * text.lines().count()];
    read_text(shape, text.as_bytes(), &mut output)?;
    Ok(output)
}
