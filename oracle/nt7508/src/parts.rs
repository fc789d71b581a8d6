//! What calls take and give: times, events, drives, voltages and refusals.
use crate::{
    words::{clock, scan, wide, words},
    DRIVE_WORDS, EVENT_WORDS, VOLTAGE_WORDS,
};

/// A moment: seconds and a fraction of a second, in units of 2^-64 s.
#[derive(Clone, Copy, Debug, Default, PartialEq, Eq, PartialOrd, Ord)]
pub struct Time(u128);

impl Time {
    /// The start.
    pub const ZERO: Self = Self(0);
    /// The moment of so many fraction units.
    #[inline]
    pub const fn from_raw(raw: u128) -> Self {
        Self(raw)
    }
    /// In fraction units.
    #[inline]
    pub const fn raw(self) -> u128 {
        self.0
    }
    /// Microseconds, rounded down.
    pub fn from_micros(us: u64) -> Self {
        let mut out = [0; 2];
        clock::micros(us, &mut out);
        Self(wide(out[0], out[1]))
    }
    #[inline]
    pub(crate) fn of(seconds: u64, fraction: u64) -> Self {
        Self(wide(seconds, fraction))
    }
    /// Its seconds and fraction.
    pub fn words(self) -> [u64; 2] {
        words(self.0)
    }
}

/// Why a call is turned down. Nothing that the call was given has changed.
#[derive(Clone, Copy, Debug, PartialEq, Eq)]
pub enum Refusal {
    /// 1: a time of 2^32 s or later.
    Time,
    /// 2: RAM or icons of another length.
    Memory,
    /// 3: a setting or another field of the state out of its range.
    State,
    /// 4: a field of the scan out of its range, or a rate that is no LCD rate.
    Scan,
    /// 5: a clock that is not of its rate, or out of range.
    Clock,
    /// 6: restored before its clock, or after the end of its wait.
    Restore,
    /// 7: more than 8 bits, or a bit set at or above the count.
    Group,
    /// 8: an image of another length.
    Image,
    /// 9: a session's text: too long, its names line wrong, a line malformed.
    Line,
    /// 19: a listing that is too short.
    Listing,
    /// 20: a block of another length, or one that holds no state.
    Block,
}

impl Refusal {
    const ALL: [(u64, Self); 11] = [
        (1, Self::Time),
        (2, Self::Memory),
        (3, Self::State),
        (4, Self::Scan),
        (5, Self::Clock),
        (6, Self::Restore),
        (7, Self::Group),
        (8, Self::Image),
        (9, Self::Line),
        (19, Self::Listing),
        (20, Self::Block),
    ];
    /// Its number.
    pub fn number(self) -> u64 {
        let mut all = Self::ALL.iter();
        all.find(|(_, why)| *why == self).map_or(0, |(n, _)| *n)
    }
    /// The refusal of a number, if there is one.
    pub fn of(number: u64) -> Option<Self> {
        let mut all = Self::ALL.iter();
        all.find(|(n, _)| *n == number).map(|(_, why)| *why)
    }
    /// What a status says of a value. The library has no number but these.
    #[inline]
    pub(crate) fn unless<T>(status: u64, value: T) -> Result<T, Self> {
        match status {
            0 => Ok(value),
            _ => Err(Self::of(status).unwrap_or(Self::Block)),
        }
    }
}

impl std::fmt::Display for Refusal {
    fn fmt(&self, out: &mut std::fmt::Formatter) -> std::fmt::Result {
        write!(out, "refused {}", self.number())
    }
}

impl std::error::Error for Refusal {}

/// What a whole byte did.
#[derive(Clone, Copy, Debug, PartialEq, Eq)]
pub enum Event {
    /// A data byte was stored.
    LcdWrite {
        /// When its last bit came.
        at: Time,
        /// 0 to 15, or 16 for the icons.
        page: u8,
        /// Its place in the page.
        column_byte: u16,
        /// The byte.
        value: u8,
    },
    /// A command acted.
    LcdControl {
        /// When its last bit came.
        at: Time,
        /// The command.
        command: u8,
        /// Its parameter, if it awaited one.
        parameter: Option<u8>,
    },
}

impl Event {
    #[inline]
    pub(crate) fn of(words: &[u64; EVENT_WORDS]) -> Option<Self> {
        let [kind, page, column, value, marked, parameter, seconds, fraction] = *words;
        let at = Time::of(seconds, fraction);
        match kind {
            1 => Some(Self::LcdWrite {
                at,
                page: page as u8,
                column_byte: column as u16,
                value: value as u8,
            }),
            2 => Some(Self::LcdControl {
                at,
                command: value as u8,
                parameter: (marked != 0).then_some(parameter as u8),
            }),
            _ => None,
        }
    }
}

/// The microvolts of a word, or none for the one that says so.
fn level(word: u64) -> Option<u32> {
    u32::try_from(word).ok()
}

/// Target, pump and V0 to V4, in microvolts.
#[derive(Clone, Copy, Debug, PartialEq, Eq)]
pub struct LcdVoltages {
    /// The raised supply.
    pub pump: Option<u32>,
    /// What V0 is to have.
    pub target: u32,
    /// V0 to V4.
    pub levels: [Option<u32>; 5],
}

impl LcdVoltages {
    pub(crate) fn of(words: &[u64; VOLTAGE_WORDS]) -> Self {
        let [target, pump, levels @ ..] = *words;
        Self {
            pump: level(pump),
            target: target as u32,
            levels: levels.map(level),
        }
    }
}

/// What the electrodes get at a moment.
#[derive(Clone, Copy, Debug, PartialEq, Eq)]
pub struct LcdDrive {
    /// The selected common, 0 to 128.
    pub common: Option<u8>,
    /// The active segments: segment n is bit n % 64 of word n / 64.
    pub segments: [u64; 2],
    /// Whether the levels are exchanged.
    pub inverted: bool,
    /// The voltages.
    pub voltages: LcdVoltages,
    /// Whether every electrode is at 0.
    pub grounded: bool,
    /// Duty × PWM of the scan shown; 0 if undriven.
    pub frame: u16,
    words: [u64; DRIVE_WORDS],
}

impl LcdDrive {
    pub(crate) fn of(words: [u64; DRIVE_WORDS], frame: u16) -> Self {
        let [common, low, high, inverted, grounded, voltages @ ..] = words;
        Self {
            common: u8::try_from(common).ok().filter(|number| *number < 129),
            segments: [low, high],
            inverted: inverted != 0,
            voltages: LcdVoltages::of(&voltages),
            grounded: grounded != 0,
            frame,
            words,
        }
    }
    /// The voltage of a common, 0 to 128; none if undriven or without its level.
    pub fn common_microvolts(&self, common: u8) -> Option<u32> {
        level(scan::common_microvolts(&self.words, common))
    }
    /// The voltage of a segment, 0 to 127; none if undriven or without its level.
    pub fn segment_microvolts(&self, segment: u8) -> Option<u32> {
        level(scan::segment_microvolts(&self.words, segment))
    }
}
