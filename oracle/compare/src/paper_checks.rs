//! Document 01's table of refusals, numbers 1, 3, 4 and 5, and its setting
//! finder, plainly written. Checks run in the table's order.
use crate::{
    any::{Checked, Pair, Refused},
    chip::{Chip, Display, Scan},
    paper::{edge, target_at, Paper},
    rates::RATES,
    side::{ClockState, Side, END},
};
use original::{
    ask::{clock::Parts, voltage::Question},
    devices::nt7508::LcdVoltages,
};

/// Number 1: 2^32 s or later.
pub fn time(at: u128) -> Refused<()> {
    (at < END).then_some(()).ok_or(1)
}

/// Number 4: a rate that is no LCD rate.
fn rate(p: u64, q: u64) -> Refused<()> {
    RATES.contains(&(p, q)).then_some(()).ok_or(4)
}

/// Number 5. The rate is an LCD rate, so that nothing here runs over.
fn clock(clock: &Parts, p: u64, q: u64) -> Refused<ClockState> {
    let state = ClockState {
        at: clock.at,
        p,
        q,
        fraction: clock.fraction,
        ordinal: clock.ordinal,
    };
    let own = state.parts();
    let of_the_rate = (clock.whole, clock.remainder, clock.denominator)
        == (own.whole, own.remainder, own.denominator);
    if !of_the_rate || clock.fraction >= p || clock.at >= END {
        return Err(5);
    }
    // ordinal × q × 2^64 above last edge × p + fraction, both sides over 2^64
    let units = (clock.at * u128::from(p) + u128::from(clock.fraction)) >> 64;
    if u128::from(clock.ordinal) * u128::from(q) > units {
        return Err(5);
    }
    Ok(state)
}

/// Number 3, of the settings that the voltages read.
pub fn settings(settings: [u8; 8]) -> Refused<()> {
    let [contrast, regulator, power, booster, bias, slope, trim, otp] = settings;
    let good = contrast < 64
        && regulator < 8
        && power < 8
        && booster & !0b1011 == 0
        && bias < 8
        && slope < 2
        && trim < 16
        && otp < 4;
    good.then_some(()).ok_or(3)
}

/// The clock moved by edges, if it stays in range.
fn moved(state: &ClockState, edges: u64) -> Refused<Parts> {
    // More seconds than the range has, before anything runs over.
    let seconds = u128::from(edges) * u128::from(state.q) / u128::from(state.p);
    if seconds > 1 << 33 {
        return Err(1);
    }
    let (at, fraction) = edge(state, edges);
    time(at)?;
    Ok(Parts {
        at,
        fraction,
        ordinal: state.ordinal + edges,
        ..state.parts()
    })
}

impl Checked for Paper {
    fn try_new(&mut self, at: u128, p: u64, q: u64) -> Refused<Parts> {
        time(at)?;
        rate(p, q)?;
        Ok(self.new_clock(at, p, q))
    }
    fn try_check(&mut self, parts: &Parts, p: u64, q: u64) -> Refused<()> {
        rate(p, q)?;
        clock(parts, p, q).map(|_| ())
    }
    fn try_edges(&mut self, parts: &Parts, p: u64, q: u64, now: u128) -> Refused<u64> {
        time(now)?;
        rate(p, q)?;
        Ok(self.edges_to(&clock(parts, p, q)?, now))
    }
    fn try_move(&mut self, parts: &Parts, p: u64, q: u64, edges: u64) -> Refused<Parts> {
        rate(p, q)?;
        moved(&clock(parts, p, q)?, edges)
    }
    fn try_pass(
        &mut self,
        parts: &Parts,
        (p, q): (u64, u64),
        now: u128,
        limit: u64,
    ) -> Refused<(u64, Parts)> {
        time(now)?;
        rate(p, q)?;
        let state = clock(parts, p, q)?;
        let count = self.edges_to(&state, now).min(limit);
        Ok((count, moved(&state, count)?))
    }
    fn try_settings(&mut self, bytes: [u8; 8]) -> bool {
        settings(bytes).is_ok()
    }
    fn try_voltages(&mut self, question: &Question) -> Refused<LcdVoltages> {
        settings(question.settings)?;
        Ok(self.voltages(question))
    }
    /// A search over all 512 pairs.
    fn try_find(&mut self, band: (u32, u32), bytes: [u8; 8], temperature: i32) -> Refused<Pair> {
        settings(bytes)?;
        let mut pairs =
            (0..8).flat_map(|regulator| (0..64).map(move |contrast| (regulator, contrast)));
        let fits =
            pairs.any(|pair| (band.0..=band.1).contains(&target_at(bytes, temperature, pair)));
        Ok(if fits { Pair::Fits } else { Pair::None })
    }
}

/// Number 3, of the settings that the scan reads.
pub fn display(display: &Display) -> Refused<()> {
    let lines = display.inversion_lines;
    let good = display.start_line < 128
        && display.initial_com < 128
        && (16..=128).contains(&display.duty)
        && (lines == 0 || (3..=33).contains(&lines))
        && display.gray_mode < 8
        && display.oscillator_control < 4
        && display.oscillator_frequency < 32;
    good.then_some(()).ok_or(3)
}

/// Numbers 4 and 5 of a scan.
pub fn scan(scan: &Scan) -> Refused<()> {
    let rows = u16::from(scan.duty) + u16::from(scan.icon);
    let (lines, count) = (scan.inversion_lines, scan.inversion_count);
    let (p, q) = scan.rate;
    let good = (16..=128).contains(&scan.duty)
        && scan.initial_com < 128
        && scan.start_line < 128
        && [9, 12, 15].contains(&scan.pwm)
        && scan.step < scan.pwm
        && [3, 4].contains(&scan.frc_count)
        && scan.frc < scan.frc_count
        && u16::from(scan.row) < rows
        && (lines == 0 || (3..=33).contains(&lines))
        && (lines == 0 || count < lines);
    good.then_some(()).ok_or(4u64)?;
    rate(p, q)?;
    match &scan.clock {
        Some(parts) => clock(parts, p, q).map(|_| ()),
        None => Ok(()),
    }
}

/// Whether no check turns the state of a scan layer down.
pub fn accepted(chip: &Chip) -> bool {
    display(&chip.display).is_ok()
        && settings(chip.analog.bytes()).is_ok()
        && scan(&chip.scan).is_ok()
}
