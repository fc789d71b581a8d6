//! The clock. A clock is eight words: the seconds and fraction of its last edge,
//! its period (high, low, remainder), its rate's numerator, its fraction and its
//! ordinal.
use super::words;
use crate::CLOCK_WORDS;

extern "C" {
    fn nt7508_time_from_micros(us: u64, out: &mut [u64; 2]);
    fn nt7508_clock_new(
        seconds: u64,
        fraction: u64,
        p: u64,
        q: u64,
        out: &mut [u64; CLOCK_WORDS],
    ) -> u64;
    fn nt7508_clock_check(clock: &[u64; CLOCK_WORDS], p: u64, q: u64) -> u64;
    fn nt7508_clock_edges_to(
        clock: &[u64; CLOCK_WORDS],
        p: u64,
        q: u64,
        seconds: u64,
        fraction: u64,
        out: &mut u64,
    ) -> u64;
    fn nt7508_clock_moved(clock: &mut [u64; CLOCK_WORDS], p: u64, q: u64, edges: u64) -> u64;
    fn nt7508_clock_passed_to(
        clock: &mut [u64; CLOCK_WORDS],
        p: u64,
        q: u64,
        seconds: u64,
        fraction: u64,
        limit: u64,
        count: &mut u64,
    ) -> u64;
}

/// Microseconds as seconds and fraction.
#[inline]
pub fn micros(us: u64, out: &mut [u64; 2]) {
    unsafe { nt7508_time_from_micros(us, out) }
}

/// A clock of p edges in q seconds that starts at a moment.
#[inline]
pub fn new(at: u128, p: u64, q: u64, out: &mut [u64; CLOCK_WORDS]) -> u64 {
    let [seconds, fraction] = words(at);
    unsafe { nt7508_clock_new(seconds, fraction, p, q, out) }
}

/// Whether a clock is one of its rate.
#[inline]
pub fn check(clock: &[u64; CLOCK_WORDS], p: u64, q: u64) -> u64 {
    unsafe { nt7508_clock_check(clock, p, q) }
}

/// How many edges stand after the last one, up to a moment.
#[inline]
pub fn edges_to(clock: &[u64; CLOCK_WORDS], p: u64, q: u64, now: u128, out: &mut u64) -> u64 {
    let [seconds, fraction] = words(now);
    unsafe { nt7508_clock_edges_to(clock, p, q, seconds, fraction, out) }
}

/// Moves a clock by edges.
#[inline]
pub fn moved(clock: &mut [u64; CLOCK_WORDS], p: u64, q: u64, edges: u64) -> u64 {
    unsafe { nt7508_clock_moved(clock, p, q, edges) }
}

/// Moves a clock up to a moment, by so many edges at the most.
#[inline]
pub fn passed_to(
    clock: &mut [u64; CLOCK_WORDS],
    (p, q): (u64, u64),
    now: u128,
    limit: u64,
    count: &mut u64,
) -> u64 {
    let [seconds, fraction] = words(now);
    unsafe { nt7508_clock_passed_to(clock, p, q, seconds, fraction, limit, count) }
}
