//! The books in plain Rust, to measure the proved ones by: what they keep, and calls and answers as bytes and as lines.

pub mod answer_lines;
pub mod call_lines;
pub mod limits;
pub mod numbers;
pub mod plain;
pub mod rows;
mod words;
