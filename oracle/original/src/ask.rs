//! What the driver asks of the original: each function of document 01 by
//! itself, and states put in and read out. Nothing here decides a result; a
//! function either calls the original or moves bytes.
pub mod clock;
pub mod controller;
pub mod voltage;

use std::panic::{catch_unwind, AssertUnwindSafe};

/// What `question` answers, or the words of its panic. Where many questions are
/// asked in a row, put them all in one call: each costs a little.
pub fn caught<T>(question: impl FnOnce() -> T) -> Result<T, String> {
    catch_unwind(AssertUnwindSafe(question)).map_err(|panic| {
        let words = panic.downcast_ref::<&str>().map(|words| words.to_string());
        words
            .or_else(|| panic.downcast_ref::<String>().cloned())
            .unwrap_or_else(|| "panic without words".to_string())
    })
}

/// Panics are caught and reported by the driver, so their own print is left out.
pub fn quiet_panics() {
    std::panic::set_hook(Box::new(|_| {}));
}
