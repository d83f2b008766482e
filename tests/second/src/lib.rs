//! A second implementation of docs/REQUIREMENTS.md, written apart from the engine.
//!
//! Terms, types and judgements are trees here, and recursion on them is plain:
//! run it on a deep stack (`on_deep_stack`). The engine works on bytes in place,
//! so the two have little in common beyond the text that they follow.

pub mod anywhere;
pub mod bell;
pub mod book;
pub mod catalogue;
pub mod checking;
pub mod comparing;
pub mod counting;
pub mod dearest;
pub mod finish_line;
pub mod finishing;
pub mod joining;
pub mod machine;
pub mod order;
pub mod plain;
pub mod reading;
pub mod refusal;
pub mod rows;
pub mod rules;
pub mod small_runs;
pub mod small_terms;
pub mod stepping;
pub mod sweeping;
pub mod term;
pub mod types;

/// Runs `work` on a thread whose stack holds recursion on any term that a call can bring.
pub fn on_deep_stack<T: Send + 'static>(work: impl FnOnce() -> T + Send + 'static) -> T {
    let thread = std::thread::Builder::new().stack_size(512 << 20).spawn(work);
    thread.expect("a thread can be started").join().expect("the thread ended by itself")
}
