//! The rows of the asking side: requests that are written from their parts, and completions that are read back.

mod completions;
mod requests;
mod safe_rust;

use crate::row::Row;

/// How many inputs a row has, and how many calls are in a pass.
const INPUTS: usize = 64;
const CALLS: usize = 256;

/// The rows of the writer and of the reader, after both sides gave equal answers to all inputs.
pub fn rows() -> Result<Vec<Row>, String> {
    let mut rows = requests::rows()?;
    rows.extend(completions::rows()?);
    Ok(rows)
}
