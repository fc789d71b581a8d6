//! Document 01's clock and voltage rules, written from the document and not
//! from the Rust, as plainly as the words go and with no care for speed. It
//! shows whether the Rust does what the document says. `paper_checks.rs` has
//! the document's checks.
use crate::side::{ClockState, Named, Side};
use original::{
    ask::{clock::Parts, voltage::Question},
    devices::nt7508::LcdVoltages,
};

pub struct Paper;

/// Edge k stands at start + floor(k·q·2^64 / p). A clock that was moved keeps
/// what the floor left over, in p-ths of a unit, as its fraction.
/// Gives the time of the edge and what its floor leaves over.
pub fn edge(clock: &ClockState, k: u64) -> (u128, u64) {
    let units = (u128::from(k) * u128::from(clock.q))
        .checked_mul(1 << 64)
        .expect("k·q below 2^64");
    let exact = units + u128::from(clock.fraction);
    let p = u128::from(clock.p);
    (clock.at + exact / p, (exact % p) as u64)
}

/// Target in microvolts.
pub fn target(question: &Question) -> u32 {
    let settings = question.settings;
    target_at(settings, question.temperature, (settings[1], settings[0]))
}

/// Target in microvolts with this regulator and contrast.
pub fn target_at(settings: [u8; 8], temperature: i32, (regulator, contrast): (u8, u8)) -> u32 {
    let [_, _, _, _, _, slope, trim, otp] = settings.map(i128::from);
    let c = if slope == 0 { 125 } else { 50 };
    let t = (100_000_000 - (i128::from(temperature) - 25_000) * c).max(0);
    let trim = match (otp % 2, trim) {
        (0, _) => 0,
        (_, 0..=7) => trim,
        _ => trim - 16,
    };
    let e = 147 + i128::from(contrast) + trim;
    let gain = [345, 450, 555, 660, 765, 870, 975, 1080][usize::from(regulator)];
    let floor = (t * e * gain + 750_000) / 1_500_000;
    floor.min(4_294_967_295) as u32
}

/// How often the pump multiplies the supply.
pub fn multiple(booster: u8) -> u32 {
    let high = if booster & 8 != 0 { 4 } else { 0 };
    (3 + u32::from(booster & 3) + high).min(8)
}

fn pump(question: &Question) -> Option<u32> {
    let present = question.settings[2] & 4 != 0
        && (2400..=3600).contains(&question.supply)
        && (-30_000..=85_000).contains(&question.temperature)
        && !question.power_save
        && !question.waiting;
    present.then(|| u32::from(question.supply) * 1000 * multiple(question.settings[3]))
}

/// V1 to V4 are absent unless V0 is there and power-control bit 0 is set.
fn levels(question: &Question, target: u32, pump: Option<u32>) -> [Option<u32>; 5] {
    let power = question.settings[2];
    let above = pump.is_some_and(|pump| u64::from(pump) > u64::from(target) + 3_000_000);
    if power & 2 == 0 || !(4_000_000..=15_000_000).contains(&target) || !above {
        return [None; 5];
    }
    if power & 1 == 0 {
        return [Some(target), None, None, None, None];
    }
    let n = u64::from(question.settings[4]) + 5;
    let level = |f: u64| Some(((u64::from(target) * f + n / 2) / n) as u32);
    [Some(target), level(n - 1), level(n - 2), level(2), level(1)]
}

impl Named for Paper {
    const NAME: &'static str = "paper";
}

impl Side for Paper {
    fn micros(&mut self, us: u64) -> u128 {
        (u128::from(us) << 64) / 1_000_000
    }
    fn new_clock(&mut self, at: u128, p: u64, q: u64) -> Parts {
        ClockState {
            at,
            p,
            q,
            fraction: 0,
            ordinal: 0,
        }
        .parts()
    }
    /// The largest k whose edge is not later than `now`, by halving: no formula
    /// shared with the original.
    fn edges_to(&mut self, clock: &ClockState, now: u128) -> u64 {
        if now < clock.at {
            return 0;
        }
        let (mut low, mut high) = (0u64, 1 << 54);
        while high - low > 1 {
            let middle = low + (high - low) / 2;
            if edge(clock, middle).0 <= now {
                low = middle;
            } else {
                high = middle;
            }
        }
        low
    }
    fn advance(&mut self, clock: &ClockState, edges: u64) -> ClockState {
        let (at, fraction) = edge(clock, edges);
        ClockState {
            at,
            fraction,
            ordinal: clock.ordinal + edges,
            ..*clock
        }
    }
    fn voltages(&mut self, question: &Question) -> LcdVoltages {
        let target = target(question);
        let pump = pump(question);
        LcdVoltages {
            pump,
            target,
            levels: levels(question, target, pump),
        }
    }
}
