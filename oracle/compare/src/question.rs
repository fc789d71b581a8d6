//! One question of each function that is compared, in a form that can be asked
//! of either side, printed, and made smaller.
use crate::{
    rates::RATES,
    side::{ClockState, Side, END},
};
use original::{
    ask::{clock::Parts, voltage::Question as Voltage},
    devices::nt7508::LcdVoltages,
};
use std::fmt::Debug;

pub trait Asked: Copy + Debug {
    type Answer: PartialEq + Debug;
    const NAME: &'static str;
    /// The question as numbers, for the shrinking routine.
    fn numbers(&self) -> Vec<u128>;
    /// The question of these numbers, if it is within its limits.
    fn of(numbers: &[u128]) -> Option<Self>;
    /// The plainest value of each number.
    const LEAST: &'static [u128];
    /// The number of a refusal, by which answers are counted; 0 for any other.
    fn refusal(_: &Self::Answer) -> u64 {
        0
    }
}

/// A question that a side can be asked.
pub trait Question<S>: Asked {
    fn ask(&self, side: &mut S) -> Self::Answer;
}

#[derive(Clone, Copy, Debug)]
pub struct Micros(pub u64);

impl Asked for Micros {
    type Answer = u128;
    const NAME: &'static str = "microseconds";
    fn numbers(&self) -> Vec<u128> {
        vec![u128::from(self.0)]
    }
    fn of(numbers: &[u128]) -> Option<Self> {
        u64::try_from(numbers[0]).ok().map(Self)
    }
    const LEAST: &'static [u128] = &[0];
}

impl<S: Side> Question<S> for Micros {
    fn ask(&self, side: &mut S) -> u128 {
        side.micros(self.0)
    }
}

#[derive(Clone, Copy, Debug)]
pub struct NewClock {
    pub at: u128,
    pub rate: (u64, u64),
}

/// Rates shrink by their place in the list.
fn rate_index(rate: (u64, u64)) -> u128 {
    RATES
        .iter()
        .position(|known| *known == rate)
        .expect("an LCD rate") as u128
}

fn rate_at(index: u128) -> Option<(u64, u64)> {
    RATES.get(usize::try_from(index).ok()?).copied()
}

impl Asked for NewClock {
    type Answer = Parts;
    const NAME: &'static str = "new";
    fn numbers(&self) -> Vec<u128> {
        vec![rate_index(self.rate), self.at]
    }
    fn of(numbers: &[u128]) -> Option<Self> {
        let rate = rate_at(numbers[0])?;
        (numbers[1] < END).then_some(Self {
            at: numbers[1],
            rate,
        })
    }
    const LEAST: &'static [u128] = &[0, 0];
}

impl<S: Side> Question<S> for NewClock {
    fn ask(&self, side: &mut S) -> Parts {
        side.new_clock(self.at, self.rate.0, self.rate.1)
    }
}

/// The clock of these numbers, if it passes document 01's check 5.
fn clock_of(numbers: &[u128]) -> Option<ClockState> {
    let (p, q) = rate_at(numbers[0])?;
    let clock = ClockState {
        p,
        q,
        at: numbers[1],
        fraction: u64::try_from(numbers[2]).ok()?,
        ordinal: u64::try_from(numbers[3]).ok()?,
    };
    (clock.at < END && clock.fraction < p && clock.ordinal <= most_edges(&clock)).then_some(clock)
}

/// The largest ordinal that check 5 lets a clock have.
pub fn most_edges(clock: &ClockState) -> u64 {
    let exact = clock.at * u128::from(clock.p) + u128::from(clock.fraction);
    (exact / (u128::from(clock.q) << 64)) as u64
}

fn clock_numbers(clock: &ClockState, last: u128) -> Vec<u128> {
    let rate = rate_index((clock.p, clock.q));
    vec![
        rate,
        clock.at,
        u128::from(clock.fraction),
        u128::from(clock.ordinal),
        last,
    ]
}

#[derive(Clone, Copy, Debug)]
pub struct EdgesTo {
    pub clock: ClockState,
    pub now: u128,
}

impl Asked for EdgesTo {
    type Answer = u64;
    const NAME: &'static str = "edges up to a moment";
    fn numbers(&self) -> Vec<u128> {
        clock_numbers(&self.clock, self.now)
    }
    fn of(numbers: &[u128]) -> Option<Self> {
        let clock = clock_of(numbers)?;
        (numbers[4] < END).then_some(Self {
            clock,
            now: numbers[4],
        })
    }
    const LEAST: &'static [u128] = &[0; 5];
}

impl<S: Side> Question<S> for EdgesTo {
    fn ask(&self, side: &mut S) -> u64 {
        side.edges_to(&self.clock, self.now)
    }
}

#[derive(Clone, Copy, Debug)]
pub struct Advance {
    pub clock: ClockState,
    pub edges: u64,
}

impl Asked for Advance {
    type Answer = ClockState;
    const NAME: &'static str = "advance";
    fn numbers(&self) -> Vec<u128> {
        clock_numbers(&self.clock, u128::from(self.edges))
    }
    /// Within the limits no clock is moved to 2^32 s or later.
    fn of(numbers: &[u128]) -> Option<Self> {
        let clock = clock_of(numbers)?;
        let edges = u64::try_from(numbers[4]).ok()?;
        (edges < 1 << 54 && crate::paper::edge(&clock, edges).0 < END)
            .then_some(Self { clock, edges })
    }
    const LEAST: &'static [u128] = &[0; 5];
}

impl<S: Side> Question<S> for Advance {
    fn ask(&self, side: &mut S) -> ClockState {
        side.advance(&self.clock, self.edges)
    }
}

#[derive(Clone, Copy, Debug)]
pub struct PassedTo {
    pub clock: ClockState,
    pub now: u128,
    pub limit: u64,
}

impl Asked for PassedTo {
    type Answer = (u64, ClockState);
    const NAME: &'static str = "passed to a moment";
    fn numbers(&self) -> Vec<u128> {
        let mut numbers = clock_numbers(&self.clock, self.now);
        numbers.push(u128::from(self.limit));
        numbers
    }
    fn of(numbers: &[u128]) -> Option<Self> {
        let EdgesTo { clock, now } = EdgesTo::of(numbers)?;
        let limit = u64::try_from(numbers[5]).ok()?;
        Some(Self { clock, now, limit })
    }
    const LEAST: &'static [u128] = &[0; 6];
}

impl<S: Side> Question<S> for PassedTo {
    fn ask(&self, side: &mut S) -> (u64, ClockState) {
        side.passed_to(&self.clock, self.now, self.limit)
    }
}

/// The largest value of each setting that check 3 lets through.
pub const MOST: [u8; 8] = [63, 7, 7, 11, 7, 1, 15, 3];

/// The settings whose values were in range; a booster lacks bit 2.
fn settings_of(numbers: &[u128]) -> Option<[u8; 8]> {
    let mut settings = [0; 8];
    for (index, setting) in settings.iter_mut().enumerate() {
        *setting = u8::try_from(numbers[index])
            .ok()
            .filter(|value| *value <= MOST[index])?;
    }
    (settings[3] & 4 == 0).then_some(settings)
}

/// Temperatures as unsigned numbers: 2^31 more.
pub fn unsigned(temperature: i32) -> u32 {
    (temperature as u32) ^ 0x8000_0000
}

pub fn signed(number: u32) -> i32 {
    (number ^ 0x8000_0000) as i32
}

impl Asked for Voltage {
    type Answer = LcdVoltages;
    const NAME: &'static str = "voltages";
    fn numbers(&self) -> Vec<u128> {
        let mut numbers: Vec<u128> = self.settings.map(u128::from).to_vec();
        numbers.push(u128::from(self.supply));
        numbers.push(u128::from(unsigned(self.temperature)));
        numbers.push(u128::from(self.power_save));
        numbers.push(u128::from(self.waiting));
        numbers
    }
    fn of(numbers: &[u128]) -> Option<Self> {
        (numbers[10] < 2 && numbers[11] < 2).then_some(())?;
        Some(Self {
            settings: settings_of(numbers)?,
            supply: u16::try_from(numbers[8]).ok()?,
            temperature: signed(u32::try_from(numbers[9]).ok()?),
            power_save: numbers[10] == 1,
            waiting: numbers[11] == 1,
        })
    }
    const LEAST: &'static [u128] = &[0, 0, 0, 0, 0, 0, 0, 0, 0, 0x8000_0000 + 25_000, 0, 0];
}

impl<S: Side> Question<S> for Voltage {
    fn ask(&self, side: &mut S) -> LcdVoltages {
        side.voltages(self)
    }
}
