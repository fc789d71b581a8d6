//! Random states of the scan layer that pass every check of document 01's
//! table: each field is free within its range, so that all kinds of change are
//! pending at once; and moments about their edges, row ends and frame ends.
use crate::{
    chip::{Analog, Chip, Display, Power, Scan},
    chip_words::ChipWords,
    clock::{random_clock, random_edges},
    ffi_scan,
    paper::edge,
    question::most_edges,
    random::Random,
    rates::RATES,
    side::{ClockState, END},
    voltage::{cornered, random_settings, temperatures},
};
use original::ask::{controller::Controller, voltage::Question};

/// Intervals of line inversion: 0, or 3 to 33.
fn lines(random: &mut Random) -> u8 {
    match random.below(3) {
        0 => 0,
        1 => 3 + random.below(31) as u8,
        _ => random.pick(&[3, 4, 33]),
    }
}

fn duty(random: &mut Random) -> u8 {
    match random.below(3) {
        0 => random.pick(&[16, 17, 64, 96, 127, 128]),
        _ => 16 + random.below(113) as u8,
    }
}

fn mark(random: &mut Random) -> bool {
    random.below(2) != 0
}

/// Any of 128 commons, lines or rows.
fn line(random: &mut Random) -> u8 {
    random.below(128) as u8
}

/// Half of the palettes have no width above 9, so that all pulse at every PWM.
fn palette(random: &mut Random) -> [u8; 8] {
    let palette = random.next().to_le_bytes();
    if random.one_in(2) {
        palette.map(|byte| ((byte % 160) & 0xf0) | (byte % 10))
    } else {
        palette
    }
}

fn display(random: &mut Random) -> Display {
    Display {
        start_line: line(random),
        icon_enabled: mark(random),
        entire_on: random.one_in(8),
        reverse: mark(random),
        segment_reverse: mark(random),
        common_reverse: mark(random),
        initial_com: line(random),
        duty: duty(random),
        inversion_lines: lines(random),
        gray_mode: random.below(8) as u8,
        palette: palette(random),
        oscillator_control: random.pick(&[0, 0, 2, 2, 1, 3]),
        oscillator_frequency: random.below(32) as u8,
    }
}

/// A scan of the present settings, or with some of them otherwise; without its
/// clock and its latch.
fn scan(random: &mut Random, display: &Display) -> Scan {
    let any = random.pick(&[2, 2, 4, 1 << 40]);
    fn either<T>(random: &mut Random, any: u64, present: T, other: fn(&mut Random) -> T) -> T {
        if random.one_in(any) {
            other(random)
        } else {
            present
        }
    }
    let mut scan = Scan {
        clock: None,
        rate: (0, 0),
        duty: either(random, any, display.duty, duty),
        icon: either(random, any, display.icon_enabled, mark),
        initial_com: either(random, any, display.initial_com, line),
        common_reverse: either(random, any, display.common_reverse, mark),
        start_line: either(random, any, display.start_line, line),
        pwm: either(random, any, display.pwm(), |random| {
            random.pick(&[9, 12, 15])
        }),
        frc_count: either(random, any, display.frc_count(), |random| {
            random.pick(&[3, 4])
        }),
        inversion_lines: either(random, any, display.inversion_lines, lines),
        row: 0,
        step: 0,
        frc: 0,
        inversion_count: 0,
        inverted: false,
        segments: [0; 2],
        latched: false,
    };
    scan.row = match random.below(4) {
        0 => scan.rows() - 1,
        1 => scan.duty.min(scan.rows() - 1),
        _ => random.below(u64::from(scan.rows())) as u8,
    };
    scan.step = random.below(u64::from(scan.pwm)) as u8;
    scan.frc = random.below(u64::from(scan.frc_count)) as u8;
    // Without line inversion any count passes.
    scan.inversion_count = match scan.inversion_lines {
        0 => random.below(256) as u8,
        lines => random.below(u64::from(lines)) as u8,
    };
    scan.inverted = mark(random);
    scan.latched = mark(random);
    scan
}

/// The rate of settings and rows.
fn rate(display: &Display, rows: u8) -> (u64, u64) {
    if display.oscillator_control & 2 == 0 {
        return RATES[usize::from(rows) - 16];
    }
    RATES[114 + usize::from(display.oscillator_frequency)]
}

/// A clock of a rate: the fraction and the ordinal are free within number 5.
fn clock(random: &mut Random, (p, q): (u64, u64)) -> ClockState {
    let mut clock = random_clock(random);
    (clock.p, clock.q) = (p, q);
    let any = random.below(p);
    clock.fraction = random.pick(&[0, p - 1, any, any]);
    clock.ordinal = random.spread(u128::from(most_edges(&clock)) + 1) as u64;
    clock
}

/// Mostly driven, with a supply and a temperature at a corner or plain ones.
fn power(random: &mut Random, corner: &Question) -> Power {
    let (display_on, oscillator_enabled) = (!random.one_in(16), !random.one_in(16));
    Power {
        display_on,
        oscillator_enabled,
        power_save: random.one_in(16),
        waiting: random.one_in(32),
        supply_millivolts: if random.one_in(4) {
            corner.supply
        } else {
            2400 + random.below(1600) as u16
        },
        temperature_millicelsius: if random.one_in(2) {
            corner.temperature
        } else {
            25_000
        },
    }
}

/// A valid chip.
pub fn chip(random: &mut Random) -> Chip {
    let display = display(random);
    let analog = random_settings(random);
    let corner = cornered(random, analog, &temperatures(analog));
    let mut scan = scan(random, &display);
    let power = power(random, &corner);
    let own = rate(&display, scan.rows());
    scan.rate = if random.one_in(2) {
        own
    } else {
        random.pick(&RATES)
    };
    if !random.one_in(16) {
        scan.put_clock(clock(random, scan.rate));
    }
    scan.segments = [random.next(), random.next()];
    Chip {
        display,
        analog: Analog::of(&analog),
        power,
        scan,
    }
}

/// RAM and icons: of random bytes, or one byte all over with some others.
pub fn memory(random: &mut Random) -> (Vec<u8>, Vec<u8>) {
    let mut memory = vec![random.pick(&[0, 255, 0x55, 1]); 4352];
    if random.one_in(2) {
        memory
            .chunks_mut(8)
            .for_each(|part| part.copy_from_slice(&random.next().to_le_bytes()));
    } else {
        (0..64).for_each(|_| memory[random.below(4352) as usize] = random.next() as u8);
    }
    let icons = memory.split_off(4096);
    (memory, icons)
}

/// A moment about an edge that matters, or anywhere before 2^32 s.
pub fn near(random: &mut Random, chip: &Chip) -> u128 {
    let Some(clock) = chip.scan.clock_state() else {
        return random.spread(END);
    };
    let Scan { pwm, row, step, .. } = chip.scan;
    let [pwm, row, step, rows] = [pwm, row, step, chip.scan.rows()].map(u64::from);
    let row_end = pwm - step + pwm * random.spread(1 << 8) as u64;
    let frame_end = (rows - row) * pwm - step + rows * pwm * random.spread(1 << 8) as u64;
    let edges = match random.below(8) {
        0 => return clock.at.saturating_sub(random.spread(END)),
        1 => return (clock.at + random.spread(1 << 65)).min(END - 1),
        2 if random.one_in(2) => return random.below_wide(END),
        2 => return END - 1 - random.below_wide(4),
        3 => random.below(40),
        4 => row_end,
        5 => frame_end,
        6 => row_end + random.below(3),
        _ => random_edges(random, &clock),
    };
    let at = edge(&clock, edges).0;
    (at + random.below_wide(3)).saturating_sub(1).min(END - 1)
}

/// Such a moment of the chip itself, or of its scan as counted to one, whose
/// clock may be another.
pub fn moment(random: &mut Random, chip: &Chip) -> u128 {
    let first = near(random, chip);
    if random.one_in(2) {
        return first;
    }
    let mut counted = ChipWords::of(chip);
    ffi_scan::count_to(&mut counted, first, &mut 0);
    near(random, &counted.chip())
}

/// Power-on, with its moment, as the plainest numbers.
pub fn plainest() -> Vec<u128> {
    let mut numbers = Chip::of(&Controller::new()).numbers();
    numbers.push(0);
    numbers
}
