//! Document 01's scan, latch and drive rules, one quantum at a time, written
//! from the document. It shows whether the original's counting in pieces is
//! what the document says. No care for speed.
use crate::{
    paper::{self, Paper},
    side::{ClockState, Side},
};
use original::{
    ask::{controller::Controller, voltage::Question, voltage::SETTINGS},
    devices::nt7508::{LcdDrive, LcdVoltages},
};

/// The scan, all but its latch.
#[derive(Clone, Copy, Debug, PartialEq, Eq)]
pub struct Scan {
    pub clock: Option<ClockState>,
    pub rate: (u64, u64),
    pub frame: Frame,
    pub pwm: u8,
    pub row: u8,
    pub step: u8,
    pub phase: u8,
    pub interval: u8,
    pub count: u8,
    pub inverted: bool,
}

/// What a frame end takes.
#[derive(Clone, Copy, Debug, PartialEq, Eq)]
pub struct Frame {
    pub duty: u8,
    pub icon: bool,
    pub first: u8,
    pub reversed: bool,
    pub start_line: u8,
    pub frc_count: u8,
}

/// A number of the state.
fn number(state: &Controller, name: &str) -> u64 {
    state.number(name).expect("a number of the state") as u64
}

fn byte(state: &Controller, name: &str) -> u8 {
    number(state, name) as u8
}

fn mark(state: &Controller, name: &str) -> bool {
    number(state, name) != 0
}

/// The scan that a state holds.
pub fn held(state: &Controller) -> Scan {
    Scan {
        clock: clock(state),
        rate: (number(state, "scan.rate.0"), number(state, "scan.rate.1")),
        frame: Frame {
            duty: byte(state, "scan.duty"),
            icon: mark(state, "scan.icon"),
            first: byte(state, "scan.initial_com"),
            reversed: mark(state, "scan.common_reverse"),
            start_line: byte(state, "scan.start_line"),
            frc_count: byte(state, "scan.frc_count"),
        },
        pwm: byte(state, "scan.pwm"),
        row: byte(state, "scan.row"),
        step: byte(state, "scan.step"),
        phase: byte(state, "scan.frc"),
        interval: byte(state, "scan.inversion_lines"),
        count: byte(state, "scan.inversion_count"),
        inverted: mark(state, "scan.inverted"),
    }
}

/// The clock, with the rate that its period and denominator say.
fn clock(state: &Controller) -> Option<ClockState> {
    let at = state.number("scan.clock.at")?;
    let p = number(state, "scan.clock.denominator");
    let whole = state.number("scan.clock.whole")?;
    let period = whole * u128::from(p) + u128::from(number(state, "scan.clock.remainder"));
    Some(ClockState {
        at,
        p,
        q: (period >> 64) as u64,
        fraction: number(state, "scan.clock.fraction"),
        ordinal: number(state, "scan.clock.ordinal"),
    })
}

/// The settings that the scan takes, as they stand at present.
struct Present {
    frame: Frame,
    pwm: u8,
    interval: u8,
    control: u8,
    frequency: u8,
}

impl Present {
    fn of(state: &Controller) -> Self {
        let gray = byte(state, "gray_mode");
        Self {
            frame: Frame {
                duty: byte(state, "duty"),
                icon: mark(state, "icon_enabled"),
                first: byte(state, "initial_com"),
                reversed: mark(state, "common_reverse"),
                start_line: byte(state, "start_line"),
                frc_count: if gray & 4 != 0 { 3 } else { 4 },
            },
            pwm: [9, 9, 12, 15][usize::from(gray % 4)],
            interval: byte(state, "inversion_lines"),
            control: byte(state, "oscillator_control"),
            frequency: byte(state, "oscillator_frequency"),
        }
    }
    /// The rate of these settings and the rows that the scan holds.
    fn rate(&self, rows: u8) -> (u64, u64) {
        if self.control & 2 == 0 {
            return (1008 * u64::from(rows), 1);
        }
        let base = [92000, 122000, 147000, 184000][usize::from(self.frequency / 8)];
        (base, u64::from(self.frequency % 8) + 1)
    }
}

impl Scan {
    fn rows(&self) -> u8 {
        self.frame.duty + u8::from(self.frame.icon)
    }
    fn quantum(&mut self, present: &Present) {
        self.step += 1;
        if self.step == self.pwm {
            self.step = 0;
            self.row_end(present);
        }
    }
    /// Whether the next edge is not later than `now`.
    fn due(&self, now: u128) -> bool {
        self.clock
            .is_some_and(|clock| paper::edge(&clock, 1).0 <= now)
    }
    /// A quantum, at the next edge of the clock, which runs.
    fn tick(&mut self, present: &Present) {
        let Some(clock) = self.clock else { return };
        let moved = Paper.advance(&clock, 1);
        self.quantum(present);
        let (p, q) = present.rate(self.rows());
        self.clock = Some(moved);
        if (p, q) != self.rate {
            self.rate = (p, q);
            self.clock = Some(ClockState {
                at: moved.at,
                p,
                q,
                fraction: 0,
                ordinal: 0,
            });
        }
    }
    fn row_end(&mut self, present: &Present) {
        self.row += 1;
        let frame_end = self.row == self.rows();
        if self.interval == 0 {
            self.inverted ^= frame_end;
        } else {
            self.count += 1;
            if self.count == self.interval {
                self.count = 0;
                self.inverted = !self.inverted;
            }
        }
        if frame_end {
            self.row = 0;
            self.frame = present.frame;
            self.phase = (self.phase + 1) % self.frame.frc_count;
        }
        self.pwm = present.pwm;
        if self.interval != present.interval {
            self.interval = present.interval;
            self.count = 0;
        }
    }
}

/// A scan as counted to a moment, the quanta that took, and the pieces of the
/// piece rule that they fall into.
pub struct Counted {
    pub scan: Scan,
    pub quanta: u64,
    pub pieces: u64,
}

/// How many quanta the piece rule lets the next piece have.
fn piece(scan: &Scan, present: &Present) -> u64 {
    let (pwm, step) = (u64::from(scan.pwm), u64::from(scan.step));
    if scan.rate != present.rate(scan.rows()) {
        1
    } else if scan.pwm != present.pwm || scan.interval != present.interval {
        pwm - step
    } else if scan.frame != present.frame {
        u64::from(scan.rows() - scan.row) * pwm - step
    } else {
        u64::MAX
    }
}

/// The scan as counted to `now`, quantum by quantum. The pieces are only
/// counted along; the quanta do not depend on them.
pub fn counted(state: &Controller, now: u128) -> Counted {
    let present = Present::of(state);
    let mut scan = held(state);
    let (mut quanta, mut pieces, mut left) = (0, 0, 0);
    while scan.due(now) {
        if left == 0 {
            left = piece(&scan, &present);
            pieces += 1;
        }
        left -= 1;
        quanta += 1;
        scan.tick(&present);
    }
    Counted {
        scan,
        quanta,
        pieces,
    }
}

/// The uses of the piece rule up to `now`. Once it allows all quanta, the edges
/// that are left are one piece more, so that no more need be counted.
pub fn pieces(state: &Controller, now: u128) -> u64 {
    let present = Present::of(state);
    let mut scan = held(state);
    let mut pieces = 0;
    while scan.due(now) {
        pieces += 1;
        let left = piece(&scan, &present);
        if left == u64::MAX {
            break;
        }
        for _ in 0..left {
            if scan.due(now) {
                scan.tick(&present);
            }
        }
    }
    pieces
}

/// The shade of a segment in a row of RAM, or of the icons as row 128.
fn shade(state: &Controller, row: usize, segment: usize) -> usize {
    if mark(state, "entire_on") {
        return 3;
    }
    let column = if mark(state, "segment_reverse") {
        127 - segment
    } else {
        segment
    };
    let bit = |byte: usize| match row {
        128 => usize::from(state.icons()[byte] & 1),
        _ => usize::from(state.ram()[row / 8 * 256 + byte] >> (row % 8) & 1),
    };
    let shade = 2 * bit(2 * column) + bit(2 * column + 1);
    if mark(state, "reverse") {
        3 - shade
    } else {
        shade
    }
}

fn palette(state: &Controller) -> Vec<u8> {
    let part = Controller::part("palette").expect("a field");
    state.get(&part).expect("a field")
}

/// The width of a shade in a phase: none where the palette's is above PWM.
fn width(palette: &[u8], shade: usize, phase: u8, pwm: u8) -> u8 {
    let byte = palette[2 * shade + usize::from(phase / 2)];
    let width = [byte % 16, byte / 16][usize::from(phase % 2)];
    if width <= pwm {
        width
    } else {
        0
    }
}

/// Whether each shade is active in this quantum.
fn active(state: &Controller, scan: &Scan) -> [bool; 4] {
    let palette = palette(state);
    [0, 1, 2, 3].map(|shade| scan.step < width(&palette, shade, scan.phase, scan.pwm))
}

fn latch(state: &Controller, scan: &Scan) -> [u64; 2] {
    let row = match scan.row == scan.frame.duty {
        true => 128,
        false => (usize::from(scan.frame.start_line) + usize::from(scan.row)) % 128,
    };
    let active = active(state, scan);
    let mut segments = [0; 2];
    for segment in 0..128 {
        if active[shade(state, row, segment)] {
            segments[segment / 64] |= 1 << (segment % 64);
        }
    }
    segments
}

/// The retained latch, unless a quantum has latched anew since.
fn segments(state: &Controller, scan: &Scan, quanta: u64) -> [u64; 2] {
    if quanta != 0 || !mark(state, "scan.latched") {
        return latch(state, scan);
    }
    let part = Controller::part("scan.segments").expect("a field");
    let image = state.get(&part).expect("a field");
    [0, 8].map(|at| u64::from_le_bytes(image[at..at + 8].try_into().expect("8 bytes")))
}

fn voltages(state: &Controller) -> LcdVoltages {
    let temperature = number(state, "temperature_millicelsius") as u32 as i32;
    Paper.voltages(&Question {
        settings: SETTINGS.map(|name| byte(state, name)),
        supply: number(state, "supply_millivolts") as u16,
        temperature,
        power_save: mark(state, "power_save"),
        waiting: state.deadline().is_some(),
    })
}

/// What the electrodes are given at `now`.
pub fn drive(state: &Controller, now: u128) -> LcdDrive {
    let waiting = state.deadline().is_some();
    let save = mark(state, "power_save");
    let supply = number(state, "supply_millivolts");
    let off = LcdDrive {
        voltages: voltages(state),
        ..LcdDrive::OFF
    };
    let driven = supply >= 2400 && !waiting && mark(state, "display_on") && !save;
    if !driven || !mark(state, "oscillator_enabled") {
        return LcdDrive {
            grounded: save && supply >= 1650 && !waiting,
            ..off
        };
    }
    let Counted { scan, quanta, .. } = counted(state, now);
    let output = (scan.frame.first + scan.row % 128) % 128;
    let common = match (scan.row == scan.frame.duty, scan.frame.reversed) {
        (true, _) => 128,
        (false, false) => output,
        (false, true) => 127 - output,
    };
    LcdDrive {
        common: Some(common),
        segments: segments(state, &scan, quanta),
        inverted: scan.inverted,
        ..off
    }
}

/// The image, 96 by 64, from present settings.
pub fn render(state: &Controller) -> Vec<u8> {
    let on = number(state, "supply_millivolts") >= 2400
        && state.deadline().is_none()
        && mark(state, "display_on")
        && !mark(state, "power_save")
        && mark(state, "oscillator_enabled")
        && byte(state, "oscillator_control") & 1 == 0;
    if !on {
        return vec![0; 96 * 64];
    }
    let Present { frame, pwm, .. } = Present::of(state);
    let levels = levels(state, pwm, frame.frc_count);
    let mut pixels = Vec::new();
    for y in 0..64 {
        let common = if frame.reversed { 95 - y } else { 32 + y };
        let line = (common + 128 - usize::from(frame.first)) % 128;
        let row = (line + usize::from(frame.start_line)) % 128;
        for x in 0..96 {
            let lit = line < usize::from(frame.duty);
            pixels.push(if lit { levels[shade(state, row, x)] } else { 0 });
        }
    }
    pixels
}

/// The level of each shade: its widths summed over the phases, out of 255.
fn levels(state: &Controller, pwm: u8, frc_count: u8) -> [u8; 4] {
    let palette = palette(state);
    let all = u32::from(pwm) * u32::from(frc_count);
    [0, 1, 2, 3].map(|shade| {
        let width = |phase: u8| u32::from(width(&palette, shade, phase, pwm));
        let sum: u32 = (0..frc_count).map(width).sum();
        ((255 * sum + all / 2) / all) as u8
    })
}
