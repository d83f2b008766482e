//! Rows with hand-written expectations: each comes from docs/REQUIREMENTS.md, none from a program.

pub mod book;
pub mod catalogue;
pub mod checking;
pub mod comparing;
pub mod counting;
pub mod dearest;
pub mod finishing;
pub mod joining;
pub mod matching;
pub mod playing;
pub mod programs;
pub mod reading;
pub mod rows;
pub mod small_lines;
pub mod stepping;
pub mod sweeping;
