//! Questions about time.rs. Times are raw: whole seconds in the high 64 bits,
//! the fraction of a second in the low.
use crate::{
    time::{Clock, Time, TimeError},
    Error,
};

/// The six fields of a clock, all of them, in declaration order.
#[derive(Clone, Copy, Debug, PartialEq, Eq)]
pub struct Parts {
    pub at: u128,
    pub whole: u128,
    pub remainder: u64,
    pub denominator: u64,
    pub fraction: u64,
    pub ordinal: u64,
}

/// The clock with these fields, in order or not.
pub fn clock(parts: &Parts) -> Clock {
    Clock {
        at: Time::from_raw(parts.at),
        whole: parts.whole,
        remainder: parts.remainder,
        denominator: parts.denominator,
        fraction: parts.fraction,
        ordinal: parts.ordinal,
    }
}

pub fn parts(clock: &Clock) -> Parts {
    Parts {
        at: clock.at.raw(),
        whole: clock.whole,
        remainder: clock.remainder,
        denominator: clock.denominator,
        fraction: clock.fraction,
        ordinal: clock.ordinal,
    }
}

/// Microseconds as time, by `micros_raw`.
pub fn micros(us: u64) -> u128 {
    Time::from_micros(us).raw()
}

/// A new clock of p/q Hz.
pub fn new(at: u128, p: u64, q: u64) -> Result<Clock, TimeError> {
    Clock::new(Time::from_raw(at), p, q)
}

/// The time of the edge that comes `edges` later.
pub fn after(clock: &Clock, edges: u64) -> Result<u128, TimeError> {
    clock.after(edges).map(Time::raw)
}

/// Moves the clock; a refusal may leave it as it was.
pub fn advance(clock: &mut Clock, edges: u64) -> Result<u128, TimeError> {
    clock.advance(edges).map(Time::raw)
}

/// Edges strictly before `limit`.
pub fn edges_before(clock: &Clock, limit: u128) -> u64 {
    clock.edges_before(Time::from_raw(limit))
}

/// Edges up to and including `now`. The lines are those of `project_scan`,
/// which is private; `selfcheck` holds them to what `project_scan` counts.
pub fn edges_to(clock: &Clock, now: u128) -> u64 {
    match now.checked_add(1) {
        Some(end) => edges_before(clock, end),
        None => {
            let edges = edges_before(clock, now);
            edges + u64::from(edges != u64::MAX && after(clock, edges + 1).ok() == Some(now))
        }
    }
}

/// The clock's part of `validate`.
pub fn validate(clock: &Clock, now: u128) -> Result<(), Error> {
    clock.validate(Time::from_raw(now))
}
