//! Named tests: one line for each, and a last line with the counts.

use std::panic::{catch_unwind, AssertUnwindSafe};
use std::time::{Duration, Instant};

/// What a test found wrong, if anything.
pub type Outcome = Result<(), String>;

#[derive(Default)]
pub struct Suite {
    passed: usize,
    failed: usize,
    named: Option<String>,
}

impl Suite {
    /// With the variable TESTS_NAMED set, only tests are run that have that word in their names.
    pub fn new() -> Self {
        Suite { named: std::env::var("TESTS_NAMED").ok(), ..Suite::default() }
    }

    /// Runs one named test; a panic is a failure of that test.
    pub fn test(&mut self, name: &str, body: impl FnOnce() -> Outcome) {
        if self.named.as_ref().is_some_and(|word| !name.contains(word)) {
            return;
        }
        let start = Instant::now();
        let outcome = catch_unwind(AssertUnwindSafe(body)).unwrap_or_else(|panic| Err(words_of(&*panic)));
        if start.elapsed() > Duration::from_secs(1) {
            eprintln!("{:.1} s for {name}", start.elapsed().as_secs_f64());
        }
        match outcome {
            Ok(()) => {
                self.passed += 1;
                println!("ok {name}");
            }
            Err(what) => {
                self.failed += 1;
                println!("FAILED {name}: {}", what.replace('\n', "\\n"));
                self.stop_if_asked();
            }
        }
    }

    /// With the variable STOP_AT_FIRST set, nothing is run after a failure.
    fn stop_if_asked(&mut self) {
        if std::env::var_os("STOP_AT_FIRST").is_some() {
            std::process::exit(std::mem::take(self).end());
        }
    }

    /// Prints the counts; the exit status is 0 when nothing failed and something passed.
    pub fn end(self) -> i32 {
        println!("{} passed, {} failed", self.passed, self.failed);
        i32::from(self.failed > 0 || self.passed == 0)
    }
}

fn words_of(panic: &(dyn std::any::Any + Send)) -> String {
    let words = panic.downcast_ref::<String>().map(String::as_str);
    let words = words.or_else(|| panic.downcast_ref::<&str>().copied());
    format!("panic: {}", words.unwrap_or("without words"))
}

/// Bytes as text, cut where they are long.
pub fn shown(bytes: &[u8]) -> String {
    let cut = &bytes[..bytes.len().min(160)];
    let more = if cut.len() < bytes.len() { format!("… ({} bytes)", bytes.len()) } else { String::new() };
    format!("`{}`{more}", cut.escape_ascii())
}

/// Demands that two values are equal, and says what they are of.
pub fn equal<T: PartialEq + std::fmt::Debug>(what: &str, got: T, wanted: T) -> Outcome {
    if got == wanted {
        return Ok(());
    }
    Err(format!("{what}: got {got:?}, wanted {wanted:?}"))
}

/// Demands that two byte strings are equal, and says where they first differ.
pub fn equal_bytes(what: &str, got: &[u8], wanted: &[u8]) -> Outcome {
    if got == wanted {
        return Ok(());
    }
    let place = got.iter().zip(wanted).position(|(x, y)| x != y).unwrap_or(got.len().min(wanted.len()));
    Err(format!("{what} differs at byte {place}: got {}, wanted {}", shown(got), shown(wanted)))
}
