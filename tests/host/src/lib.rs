//! What the host tests share: a model of document 01, written from the document alone, and the compiled functions beside it.

/// The compiled functions, through the exports made for tests.
pub mod exports;
/// Random requests, figures and tables.
pub mod inputs;
/// Memory lent to a call, between guards.
pub mod lent;
/// Document 01 in plain Rust.
pub mod model;
/// The generator, and the cases that run on it.
pub mod random;
/// What was covered.
pub mod tally;
/// Random texts of figures files, sound and damaged.
pub mod texts;
