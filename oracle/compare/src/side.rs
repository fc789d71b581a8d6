//! The two sides of a comparison. `Original` is the Rust under question; a
//! `Side` is what is held against it: `paper` (the rules of document 01, plainly
//! written) or `ours` (the proved libraries).
use original::{
    ask::{
        clock::{self, Parts},
        voltage::{Bench, Question},
    },
    devices::nt7508::LcdVoltages,
};

/// The number of fraction units in the 2^32 seconds that document 01 allows.
pub const END: u128 = 1 << 96;

/// A clock as document 01 sees it: rate p/q, last edge, fraction and ordinal.
/// The original's `whole`, `remainder` and `denominator` follow from the rate.
#[derive(Clone, Copy, Debug, PartialEq, Eq)]
pub struct ClockState {
    pub at: u128,
    pub p: u64,
    pub q: u64,
    pub fraction: u64,
    pub ordinal: u64,
}

impl ClockState {
    /// The original's six fields.
    pub fn parts(&self) -> Parts {
        let period = u128::from(self.q) << 64;
        Parts {
            at: self.at,
            whole: period / u128::from(self.p),
            remainder: (period % u128::from(self.p)) as u64,
            denominator: self.p,
            fraction: self.fraction,
            ordinal: self.ordinal,
        }
    }
    /// The same rate with the fields of a moved clock, whose period and
    /// denominator must be as they were.
    pub fn moved(&self, parts: Parts) -> Self {
        let was = self.parts();
        assert_eq!(
            (parts.whole, parts.remainder, parts.denominator),
            (was.whole, was.remainder, was.denominator),
            "a moved clock keeps its period"
        );
        Self {
            at: parts.at,
            fraction: parts.fraction,
            ordinal: parts.ordinal,
            ..*self
        }
    }
}

/// The name under which a side is printed.
pub trait Named {
    const NAME: &'static str;
}

/// What a side answers. Questions are within document 01's limits: LCD rates,
/// times below 2^32 s, clocks that pass its check 5, settings that pass check 3.
pub trait Side: Named {
    fn micros(&mut self, us: u64) -> u128;
    fn new_clock(&mut self, at: u128, p: u64, q: u64) -> Parts;
    /// Edges up to and including `now`.
    fn edges_to(&mut self, clock: &ClockState, now: u128) -> u64;
    fn advance(&mut self, clock: &ClockState, edges: u64) -> ClockState;
    /// How many edges were passed, and the clock moved to the last edge not
    /// later than `now`, by `limit` edges at the most.
    fn passed_to(&mut self, clock: &ClockState, now: u128, limit: u64) -> (u64, ClockState) {
        let count = self.edges_to(clock, now).min(limit);
        (count, self.advance(clock, count))
    }
    fn voltages(&mut self, question: &Question) -> LcdVoltages;
}

/// The original as a side. A refusal is not expected within the limits and
/// panics, so that the driver reports it as a finding.
pub struct Original(Bench);

impl Original {
    pub fn new() -> Self {
        Self(Bench::new())
    }
}

impl Named for Original {
    const NAME: &'static str = "original";
}

impl Side for Original {
    fn micros(&mut self, us: u64) -> u128 {
        clock::micros(us)
    }
    fn new_clock(&mut self, at: u128, p: u64, q: u64) -> Parts {
        clock::parts(&clock::new(at, p, q).expect("a new clock"))
    }
    fn edges_to(&mut self, state: &ClockState, now: u128) -> u64 {
        clock::edges_to(&clock::clock(&state.parts()), now)
    }
    fn advance(&mut self, state: &ClockState, edges: u64) -> ClockState {
        let mut moved = clock::clock(&state.parts());
        let at = clock::advance(&mut moved, edges).expect("a moved clock");
        assert_eq!(clock::parts(&moved).at, at, "advance answers its own time");
        state.moved(clock::parts(&moved))
    }
    fn voltages(&mut self, question: &Question) -> LcdVoltages {
        self.0.voltages(question)
    }
}
