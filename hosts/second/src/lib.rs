//! The second program: document 01 and the requests 1/13 to 3/13 and 5/13 to 12/13 written once more in safe Rust, apart
//! from the library, to compare the two by.
//!
//! - [`model`] promises the documents' answers. It shares no code with the library under test, takes nothing from the
//!   heap, and answers every input without a panic.
//! - [`compare`] makes calls to the model and to a subject, compares all they leave, and counts what was reached.

#![forbid(unsafe_code)]

mod classes;
pub mod compare;
mod generate;
pub mod model;
mod reach;
mod twin;
