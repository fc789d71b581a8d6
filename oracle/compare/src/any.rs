//! Questions with any numbers at all, in document 01's limits or not, asked of
//! sides that refuse by the numbers of its table: `paper` and `ours`.
use crate::question::{signed, unsigned, Asked, Question};
use original::{
    ask::{clock::Parts, voltage::Question as Voltage},
    devices::nt7508::LcdVoltages,
};

/// An answer, or the number of the refusal.
pub type Refused<T> = Result<T, u64>;

/// What the setting finder says. The pair itself is left open by document 01,
/// so a side judges its own.
#[derive(Clone, Copy, Debug, PartialEq, Eq)]
pub enum Pair {
    Fits,
    None,
    Outside((u8, u8)),
}

pub trait Checked {
    fn try_new(&mut self, at: u128, p: u64, q: u64) -> Refused<Parts>;
    fn try_check(&mut self, clock: &Parts, p: u64, q: u64) -> Refused<()>;
    fn try_edges(&mut self, clock: &Parts, p: u64, q: u64, now: u128) -> Refused<u64>;
    fn try_move(&mut self, clock: &Parts, p: u64, q: u64, edges: u64) -> Refused<Parts>;
    fn try_pass(
        &mut self,
        clock: &Parts,
        rate: (u64, u64),
        now: u128,
        limit: u64,
    ) -> Refused<(u64, Parts)>;
    fn try_settings(&mut self, settings: [u8; 8]) -> bool;
    fn try_voltages(&mut self, question: &Voltage) -> Refused<LcdVoltages>;
    fn try_find(&mut self, band: (u32, u32), settings: [u8; 8], temperature: i32) -> Refused<Pair>;
}

fn refusal<T>(answer: &Refused<T>) -> u64 {
    answer.as_ref().err().copied().unwrap_or(0)
}

fn narrow(number: u128) -> Option<u64> {
    u64::try_from(number).ok()
}

/// A clock's fields with a rate that may not be its own.
#[derive(Clone, Copy, Debug)]
pub struct AnyClock {
    pub rate: (u64, u64),
    pub parts: Parts,
}

impl AnyClock {
    fn numbers(&self) -> Vec<u128> {
        let Parts {
            at,
            whole,
            remainder,
            denominator,
            fraction,
            ordinal,
        } = self.parts;
        let short = [
            self.rate.0,
            self.rate.1,
            remainder,
            denominator,
            fraction,
            ordinal,
        ];
        let mut numbers = vec![at, whole];
        numbers.extend(short.map(u128::from));
        numbers
    }
    fn of(numbers: &[u128]) -> Option<Self> {
        Some(Self {
            rate: (narrow(numbers[2])?, narrow(numbers[3])?),
            parts: Parts {
                at: numbers[0],
                whole: numbers[1],
                remainder: narrow(numbers[4])?,
                denominator: narrow(numbers[5])?,
                fraction: narrow(numbers[6])?,
                ordinal: narrow(numbers[7])?,
            },
        })
    }
}

#[derive(Clone, Copy, Debug)]
pub struct AnyNew {
    pub at: u128,
    pub rate: (u64, u64),
}

impl Asked for AnyNew {
    type Answer = Refused<Parts>;
    const NAME: &'static str = "new, any numbers";
    fn numbers(&self) -> Vec<u128> {
        vec![self.at, u128::from(self.rate.0), u128::from(self.rate.1)]
    }
    fn of(numbers: &[u128]) -> Option<Self> {
        let rate = (narrow(numbers[1])?, narrow(numbers[2])?);
        Some(Self {
            at: numbers[0],
            rate,
        })
    }
    const LEAST: &'static [u128] = &[0; 3];
    fn refusal(answer: &Self::Answer) -> u64 {
        refusal(answer)
    }
}

impl<S: Checked> Question<S> for AnyNew {
    fn ask(&self, side: &mut S) -> Refused<Parts> {
        side.try_new(self.at, self.rate.0, self.rate.1)
    }
}

#[derive(Clone, Copy, Debug)]
pub struct AnyCheck(pub AnyClock);

impl Asked for AnyCheck {
    type Answer = Refused<()>;
    const NAME: &'static str = "check, any numbers";
    fn numbers(&self) -> Vec<u128> {
        self.0.numbers()
    }
    fn of(numbers: &[u128]) -> Option<Self> {
        AnyClock::of(numbers).map(Self)
    }
    const LEAST: &'static [u128] = &[0; 8];
    fn refusal(answer: &Self::Answer) -> u64 {
        refusal(answer)
    }
}

impl<S: Checked> Question<S> for AnyCheck {
    fn ask(&self, side: &mut S) -> Refused<()> {
        side.try_check(&self.0.parts, self.0.rate.0, self.0.rate.1)
    }
}

/// A clock moved to a moment, by so many edges at the most.
#[derive(Clone, Copy, Debug)]
pub struct AnyPass {
    pub clock: AnyClock,
    pub now: u128,
    pub limit: u64,
}

impl Asked for AnyPass {
    type Answer = Refused<(u64, Parts)>;
    const NAME: &'static str = "passed to a moment, any numbers";
    fn numbers(&self) -> Vec<u128> {
        let mut numbers = self.clock.numbers();
        numbers.extend([self.now, u128::from(self.limit)]);
        numbers
    }
    fn of(numbers: &[u128]) -> Option<Self> {
        Some(Self {
            clock: AnyClock::of(numbers)?,
            now: numbers[8],
            limit: narrow(numbers[9])?,
        })
    }
    const LEAST: &'static [u128] = &[0; 10];
    fn refusal(answer: &Self::Answer) -> u64 {
        refusal(answer)
    }
}

impl<S: Checked> Question<S> for AnyPass {
    fn ask(&self, side: &mut S) -> Refused<(u64, Parts)> {
        side.try_pass(&self.clock.parts, self.clock.rate, self.now, self.limit)
    }
}

#[derive(Clone, Copy, Debug)]
pub struct AnyEdges {
    pub clock: AnyClock,
    pub now: u128,
}

impl Asked for AnyEdges {
    type Answer = Refused<u64>;
    const NAME: &'static str = "edges up to a moment, any numbers";
    fn numbers(&self) -> Vec<u128> {
        let mut numbers = self.clock.numbers();
        numbers.push(self.now);
        numbers
    }
    fn of(numbers: &[u128]) -> Option<Self> {
        Some(Self {
            clock: AnyClock::of(numbers)?,
            now: numbers[8],
        })
    }
    const LEAST: &'static [u128] = &[0; 9];
    fn refusal(answer: &Self::Answer) -> u64 {
        refusal(answer)
    }
}

impl<S: Checked> Question<S> for AnyEdges {
    fn ask(&self, side: &mut S) -> Refused<u64> {
        let (p, q) = self.clock.rate;
        side.try_edges(&self.clock.parts, p, q, self.now)
    }
}

#[derive(Clone, Copy, Debug)]
pub struct AnyMove {
    pub clock: AnyClock,
    pub edges: u64,
}

impl Asked for AnyMove {
    type Answer = Refused<Parts>;
    const NAME: &'static str = "moved, any numbers";
    fn numbers(&self) -> Vec<u128> {
        let mut numbers = self.clock.numbers();
        numbers.push(u128::from(self.edges));
        numbers
    }
    fn of(numbers: &[u128]) -> Option<Self> {
        Some(Self {
            clock: AnyClock::of(numbers)?,
            edges: narrow(numbers[8])?,
        })
    }
    const LEAST: &'static [u128] = &[0; 9];
    fn refusal(answer: &Self::Answer) -> u64 {
        refusal(answer)
    }
}

impl<S: Checked> Question<S> for AnyMove {
    fn ask(&self, side: &mut S) -> Refused<Parts> {
        let (p, q) = self.clock.rate;
        side.try_move(&self.clock.parts, p, q, self.edges)
    }
}

/// Eight bytes as numbers, and back.
fn bytes(settings: &[u8; 8]) -> Vec<u128> {
    settings.map(u128::from).to_vec()
}

fn settings_of(numbers: &[u128]) -> Option<[u8; 8]> {
    let mut settings = [0; 8];
    for (setting, number) in settings.iter_mut().zip(numbers) {
        *setting = u8::try_from(*number).ok()?;
    }
    Some(settings)
}

#[derive(Clone, Copy, Debug)]
pub struct AnySettings(pub [u8; 8]);

impl Asked for AnySettings {
    type Answer = bool;
    const NAME: &'static str = "settings valid, any bytes";
    fn numbers(&self) -> Vec<u128> {
        bytes(&self.0)
    }
    fn of(numbers: &[u128]) -> Option<Self> {
        settings_of(numbers).map(Self)
    }
    const LEAST: &'static [u128] = &[0; 8];
    fn refusal(valid: &bool) -> u64 {
        if *valid {
            0
        } else {
            3
        }
    }
}

impl<S: Checked> Question<S> for AnySettings {
    fn ask(&self, side: &mut S) -> bool {
        side.try_settings(self.0)
    }
}

#[derive(Clone, Copy, Debug)]
pub struct AnyVoltages(pub Voltage);

impl Asked for AnyVoltages {
    type Answer = Refused<LcdVoltages>;
    const NAME: &'static str = "voltages, any bytes";
    fn numbers(&self) -> Vec<u128> {
        self.0.numbers()
    }
    fn of(numbers: &[u128]) -> Option<Self> {
        let settings = settings_of(numbers)?;
        let mut known = numbers.to_vec();
        known[..8].fill(0);
        let plain = Voltage::of(&known)?;
        Some(Self(Voltage { settings, ..plain }))
    }
    const LEAST: &'static [u128] = Voltage::LEAST;
    fn refusal(answer: &Self::Answer) -> u64 {
        refusal(answer)
    }
}

impl<S: Checked> Question<S> for AnyVoltages {
    fn ask(&self, side: &mut S) -> Refused<LcdVoltages> {
        side.try_voltages(&self.0)
    }
}

#[derive(Clone, Copy, Debug)]
pub struct AnyFind {
    pub band: (u32, u32),
    pub settings: [u8; 8],
    pub temperature: i32,
}

impl Asked for AnyFind {
    type Answer = Refused<Pair>;
    const NAME: &'static str = "find setting, any band and bytes";
    fn numbers(&self) -> Vec<u128> {
        let mut numbers = bytes(&self.settings);
        let rest = [self.band.0, self.band.1, unsigned(self.temperature)];
        numbers.extend(rest.map(u128::from));
        numbers
    }
    fn of(numbers: &[u128]) -> Option<Self> {
        let short = |index: usize| u32::try_from(numbers[index]).ok();
        Some(Self {
            band: (short(8)?, short(9)?),
            settings: settings_of(numbers)?,
            temperature: signed(short(10)?),
        })
    }
    const LEAST: &'static [u128] = &[0, 0, 0, 0, 0, 0, 0, 0, 0, 0, 0x8000_0000 + 25_000];
    fn refusal(answer: &Self::Answer) -> u64 {
        refusal(answer)
    }
}

impl<S: Checked> Question<S> for AnyFind {
    fn ask(&self, side: &mut S) -> Refused<Pair> {
        side.try_find(self.band, self.settings, self.temperature)
    }
}
