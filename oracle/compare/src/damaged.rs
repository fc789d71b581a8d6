//! Questions with numbers outside document 01's limits, for the sides that
//! refuse: good ones with one or two numbers changed, mostly to a value beside
//! the limit.
use crate::{
    any::{
        AnyCheck, AnyClock, AnyEdges, AnyFind, AnyMove, AnyNew, AnyPass, AnySettings, AnyVoltages,
        Checked,
    },
    clock::{random_clock, random_edges, random_moment},
    compare::Compare,
    paper::{target_at, Paper},
    random::Random,
    side::{ClockState, Named, END},
    voltage::{cornered, random_settings, temperatures},
};
use original::ask::voltage::Question;

/// A number beside this one, or any.
fn beside(random: &mut Random, number: u64) -> u64 {
    match random.below(5) {
        0 => number.wrapping_add(1),
        1 => number.wrapping_sub(1),
        2 => number ^ 1 << random.below(64),
        3 => random.spread(1 << 64) as u64,
        _ => random.pick(&[0, 1, u64::MAX]),
    }
}

fn beside_wide(random: &mut Random, number: u128) -> u128 {
    match random.below(5) {
        0 => number.wrapping_add(1),
        1 => number.wrapping_sub(1),
        2 => number ^ 1 << random.below(128),
        3 => random.spread(u128::MAX),
        _ => random.pick(&[0, 1 << 64, u128::MAX]),
    }
}

/// A moment about the end of the range.
fn late(random: &mut Random) -> u128 {
    random.pick(&[END - 1, END, END + 1, END + (1 << 64), u128::MAX])
}

/// A rate that is mostly no LCD rate: one row or one divisor too few or too
/// many, an oscillator's numerator with rows' denominator, or any.
fn other_rate(random: &mut Random, (p, q): (u64, u64)) -> (u64, u64) {
    match random.below(6) {
        0 => (random.pick(&[15, 16, 129, 130]) * 1008, 1),
        1 => (p, random.pick(&[0, 1, 2, 8, 9, u64::MAX])),
        2 => (
            random.pick(&[0, 92_000, 122_000, 147_000, 184_000]),
            random.below(10),
        ),
        3 => (q, p),
        4 => (beside(random, p), q),
        _ => (p, beside(random, q)),
    }
}

/// A good clock with each of its numbers changed one time in some.
fn clock(random: &mut Random) -> (ClockState, AnyClock) {
    let state = random_clock(random);
    let mut any = AnyClock {
        rate: (state.p, state.q),
        parts: state.parts(),
    };
    let most = crate::question::most_edges(&state);
    let AnyClock { rate, parts } = &mut any;
    match random.below(16) {
        0 => *rate = other_rate(random, *rate),
        1 => parts.at = late(random),
        2 => parts.whole = beside_wide(random, parts.whole),
        3 => parts.remainder = beside(random, parts.remainder),
        4 => parts.remainder = parts.remainder.wrapping_add(state.p),
        5 => parts.denominator = beside(random, parts.denominator),
        6 => parts.fraction = random.pick(&[state.p - 1, state.p, state.p + 1, u64::MAX]),
        7 => parts.ordinal = random.pick(&[most, most.wrapping_add(1), u64::MAX]),
        // the whole period in the remainder, which the same equation would take
        8 => {
            parts.whole -= 1;
            parts.remainder += state.p;
        }
        9 => {
            parts.at = beside_wide(random, parts.at);
            parts.fraction = beside(random, parts.fraction);
        }
        _ => {}
    }
    (state, any)
}

/// A number of edges that moves the clock about to the end of the range, or any.
fn edges(random: &mut Random, clock: &ClockState) -> u64 {
    let position = clock.at * u128::from(clock.p) + u128::from(clock.fraction);
    let period = u128::from(clock.q) << 64;
    let to_the_end = (END * u128::from(clock.p) - position).div_ceil(period) as u64;
    match random.below(6) {
        0 => to_the_end,
        1 => to_the_end - 1,
        2 => to_the_end.wrapping_add(1),
        3 => random.pick(&[1 << 50, (1 << 50) - 1, (1 << 50) + 1, 1 << 63, u64::MAX]),
        4 => random.next(),
        _ => random_edges(random, clock),
    }
}

fn moment(random: &mut Random, clock: &ClockState) -> u128 {
    if random.one_in(4) {
        return late(random);
    }
    random_moment(random, clock)
}

/// 1024 questions of each function of the clock.
fn clock_round<S: Checked + Named>(compare: &mut Compare<Paper, S>, random: &mut Random) {
    let clocks: Vec<_> = (0..1024).map(|_| clock(random)).collect();
    let checks: Vec<_> = clocks.iter().map(|(_, clock)| AnyCheck(*clock)).collect();
    compare.batch(&checks);
    let new = |(state, clock): &(ClockState, AnyClock)| AnyNew {
        at: if clock.parts.at == state.at {
            moment(random, state)
        } else {
            clock.parts.at
        },
        rate: clock.rate,
    };
    compare.batch(&clocks.iter().map(new).collect::<Vec<_>>());
    let asked = |(state, clock): &(ClockState, AnyClock)| AnyEdges {
        clock: *clock,
        now: moment(random, state),
    };
    compare.batch(&clocks.iter().map(asked).collect::<Vec<_>>());
    let moved = |(state, clock): &(ClockState, AnyClock)| AnyMove {
        clock: *clock,
        edges: edges(random, state),
    };
    compare.batch(&clocks.iter().map(moved).collect::<Vec<_>>());
    let passed = |(state, clock): &(ClockState, AnyClock)| AnyPass {
        clock: *clock,
        now: moment(random, state),
        limit: edges(random, state),
    };
    compare.batch(&clocks.iter().map(passed).collect::<Vec<_>>());
}

pub fn clocks<S: Checked + Named>(
    compare: &mut Compare<Paper, S>,
    random: &mut Random,
    count: u64,
) {
    for _ in 0..count.div_ceil(1024) {
        clock_round(compare, random);
    }
}

/// Good settings, with a byte or two changed in three of four.
fn settings(random: &mut Random) -> [u8; 8] {
    let mut settings = random_settings(random);
    for _ in 0..random.below(4).min(2) {
        let index = random.below(8) as usize;
        let most = crate::question::MOST[index];
        settings[index] = match random.below(4) {
            0 => most,
            1 => most + 1,
            2 => settings[index] ^ 1 << random.below(8),
            _ => random.next() as u8,
        };
    }
    settings
}

/// A band about the target of some pair: that target alone, the gap above or
/// below it, a band a little wider, one the wrong way round, or any.
fn band(random: &mut Random, settings: [u8; 8], temperature: i32) -> (u32, u32) {
    let pair = (random.below(8) as u8, random.below(64) as u8);
    let good = settings.map(|setting| setting % 16);
    let target = target_at(good, temperature, pair);
    let near = |random: &mut Random| random.spread(1 << 20) as u32;
    match random.below(7) {
        0 => (target, target),
        1 => (
            target.saturating_add(1),
            target.saturating_add(near(random)),
        ),
        2 => (
            target.saturating_sub(near(random)),
            target.saturating_sub(1),
        ),
        3 => (
            target.saturating_sub(near(random)),
            target.saturating_add(near(random)),
        ),
        4 => (target.saturating_add(1), target),
        5 => (random.spread(1 << 32) as u32, random.spread(1 << 32) as u32),
        _ => random.pick(&[(0, 0), (0, u32::MAX), (u32::MAX, u32::MAX), (u32::MAX, 0)]),
    }
}

/// Good or damaged settings at the corners of the good ones.
fn question(random: &mut Random) -> Question {
    let bytes = settings(random);
    let good = if Paper.try_settings(bytes) {
        bytes
    } else {
        random_settings(random)
    };
    let question = cornered(random, good, &temperatures(good));
    Question {
        settings: bytes,
        ..question
    }
}

/// 1024 questions of the settings and the voltages, and of the finder 256, each
/// of which is a search.
fn voltage_round<S: Checked + Named>(compare: &mut Compare<Paper, S>, random: &mut Random) {
    let voltages: Vec<_> = (0..1024).map(|_| AnyVoltages(question(random))).collect();
    compare.batch(&voltages);
    let bytes: Vec<_> = voltages
        .iter()
        .map(|AnyVoltages(question)| AnySettings(question.settings))
        .collect();
    compare.batch(&bytes);
    let find = |AnyVoltages(question): &AnyVoltages| AnyFind {
        band: band(random, question.settings, question.temperature),
        settings: question.settings,
        temperature: question.temperature,
    };
    compare.batch(&voltages[..256].iter().map(find).collect::<Vec<_>>());
}

pub fn voltages<S: Checked + Named>(
    compare: &mut Compare<Paper, S>,
    random: &mut Random,
    count: u64,
) {
    for _ in 0..count.div_ceil(1024) {
        voltage_round(compare, random);
    }
}

/// The driver itself: sides whose checks have a fault must be found.
#[cfg(test)]
mod tests {
    use super::*;
    use crate::{
        any::{Pair, Refused},
        question::Asked,
    };
    use original::{ask::clock::Parts, devices::nt7508::LcdVoltages};

    /// Document 01's checks with faults: a rate of 130 rows passes, the ordinal
    /// is not looked at, a band's upper end is left out, and every answer about
    /// voltages is a refusal.
    struct Faulty(Paper);

    impl Named for Faulty {
        const NAME: &'static str = "faulty";
    }

    impl Checked for Faulty {
        fn try_new(&mut self, at: u128, p: u64, q: u64) -> Refused<Parts> {
            let p = if p == 130 * 1008 { 129 * 1008 } else { p };
            self.0.try_new(at, p, q)
        }
        fn try_check(&mut self, clock: &Parts, p: u64, q: u64) -> Refused<()> {
            let ordinal = 0;
            self.0.try_check(&Parts { ordinal, ..*clock }, p, q)
        }
        fn try_edges(&mut self, clock: &Parts, p: u64, q: u64, now: u128) -> Refused<u64> {
            self.0.try_edges(clock, p, q, now)
        }
        fn try_move(&mut self, clock: &Parts, p: u64, q: u64, edges: u64) -> Refused<Parts> {
            self.0.try_move(clock, p, q, edges)
        }
        fn try_pass(
            &mut self,
            clock: &Parts,
            rate: (u64, u64),
            now: u128,
            limit: u64,
        ) -> Refused<(u64, Parts)> {
            self.0.try_pass(clock, rate, now, limit)
        }
        fn try_settings(&mut self, settings: [u8; 8]) -> bool {
            self.0.try_settings(settings)
        }
        fn try_voltages(&mut self, _: &Question) -> Refused<LcdVoltages> {
            Err(3)
        }
        fn try_find(
            &mut self,
            band: (u32, u32),
            settings: [u8; 8],
            temperature: i32,
        ) -> Refused<Pair> {
            let band = (band.0, band.1.saturating_sub(1));
            self.0.try_find(band, settings, temperature)
        }
    }

    #[test]
    fn faults_of_checks_are_found() {
        let mut compare = Compare::new(Paper, Faulty(Paper));
        clocks(&mut compare, &mut Random::new(1), 100_000);
        voltages(&mut compare, &mut Random::new(1), 8192);
        assert_eq!(
            compare.differing(),
            [
                AnyCheck::NAME,
                AnyFind::NAME,
                AnyNew::NAME,
                AnyVoltages::NAME
            ]
        );
    }
}
