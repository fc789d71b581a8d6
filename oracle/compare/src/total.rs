//! How many inputs a command has compared. An input is one question to one
//! function, with all that it is lent; of lists of calls each call, of sessions
//! each text.
use std::sync::atomic::{AtomicU64, Ordering};

static TOTAL: AtomicU64 = AtomicU64::new(0);

pub fn add(inputs: u64) {
    TOTAL.fetch_add(inputs, Ordering::Relaxed);
}

/// The line that `oracle/run` adds up.
pub fn print() {
    let total = TOTAL.load(Ordering::Relaxed);
    if total != 0 {
        println!("total: {total} inputs compared");
    }
}
