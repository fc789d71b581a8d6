//! Where ours is meant to answer otherwise than the original, for the clock,
//! the voltages and the scan, and in `differences_controller.rs` for the
//! controller: each by its smallest input, run again on both sides, so that the
//! list in docs/DIFFERENCES.md cannot go stale. All of these inputs fail document
//! 01's checks, which ours makes at each call. The original is built with overflow
//! checks; where it panics only by them, the input says so, with its answer when
//! built without.
use crate::{
    any::{Checked, Refused},
    chip::Chip,
    chip_words::ChipWords,
    differences_controller,
    ffi_scan::{self, Lent},
    findings::outcome,
    ours::Ours,
    side::{ClockState, END},
    voltage::plain,
};
use original::ask::{
    clock::{self, Parts},
    controller::Controller,
    voltage::{Bench, Question},
};
use std::fmt::Debug;

/// What the original answers, and the number of ours' refusal.
pub type Recorded = (&'static str, u64);

/// An input in words, what both sides answer, and what they answered before.
pub struct Difference {
    input: &'static str,
    original: String,
    ours: Option<u64>,
    recorded: Recorded,
}

pub fn differs<T: Debug, U>(
    input: &'static str,
    original: impl FnOnce() -> T,
    ours: Refused<U>,
    recorded: Recorded,
) -> Difference {
    Difference {
        input,
        original: outcome(original),
        ours: ours.err(),
        recorded,
    }
}

/// A clock of 16128 Hz, the slowest of the rows' rates, at 0.
fn slow() -> Parts {
    ClockState {
        at: 0,
        p: 16_128,
        q: 1,
        fraction: 0,
        ordinal: 0,
    }
    .parts()
}

/// As many edges as stand up to 2^32 s at 16128 Hz.
const FAR: u64 = 16_128 << 32;

fn new(input: &'static str, at: u128, rate: (u64, u64), recorded: Recorded) -> Difference {
    differs(
        input,
        || clock::new(at, rate.0, rate.1).map(|clock| clock::parts(&clock).whole),
        Ours.try_new(at, rate.0, rate.1),
        recorded,
    )
}

fn edges(input: &'static str, parts: Parts, now: u128, recorded: Recorded) -> Difference {
    differs(
        input,
        || clock::edges_to(&clock::clock(&parts), now),
        Ours.try_edges(&parts, 16_128, 1, now),
        recorded,
    )
}

fn clocks() -> Vec<Difference> {
    let fraction = Parts {
        fraction: 16_128,
        ..slow()
    };
    let ordinal = Parts {
        ordinal: 1,
        ..slow()
    };
    let other = ClockState {
        at: 0,
        p: 17_136,
        q: 1,
        fraction: 0,
        ordinal: 0,
    };
    let moved = || {
        let mut clock = clock::clock(&slow());
        clock::advance(&mut clock, FAR)
    };
    vec![
        new(
            "new at 0: rate 1/1, no LCD rate",
            0,
            (1, 1),
            ("Ok(18446744073709551616)", 4),
        ),
        new("new at 0: rate 0/1", 0, (0, 1), ("Err(ZeroFrequency)", 4)),
        new(
            "new at 2^32 s: rate 16128/1",
            END,
            (16_128, 1),
            ("Ok(1143771333935364)", 1),
        ),
        edges(
            "edges up to 2^32 s: 16128 Hz from 0",
            slow(),
            END,
            ("69269232549888", 1),
        ),
        edges(
            "edges up to 0: 16128 Hz from 0, fraction 16128 (without overflow checks 2^64 - 1)",
            fraction,
            0,
            ("panic: attempt to subtract with overflow", 5),
        ),
        edges(
            "edges up to 0: 16128 Hz from 0, ordinal 1",
            ordinal,
            0,
            ("0", 5),
        ),
        edges(
            "edges up to 0: clock of 17136 Hz from 0 with the rate 16128/1",
            other.parts(),
            0,
            ("0", 5),
        ),
        differs(
            "advance: 16128 Hz from 0 by 16128 x 2^32 edges, to 2^32 s",
            moved,
            Ours.try_move(&slow(), 16_128, 1, FAR),
            ("Ok(79228162514264337593543950336)", 1),
        ),
    ]
}

/// The target at 25 degrees with one setting out of its range and the others 0,
/// contrast and regulator among them.
fn voltage(input: &'static str, index: usize, setting: u8, recorded: Recorded) -> Difference {
    let mut settings = [0; 8];
    settings[index] = setting;
    let question: Question = plain(settings);
    differs(
        input,
        || Bench::new().voltages(&question).target,
        Ours.try_voltages(&question),
        recorded,
    )
}

fn voltages() -> Vec<Difference> {
    vec![
        voltage(
            "target at 25 C, regulator 0: contrast 64",
            0,
            64,
            ("4853000", 3),
        ),
        voltage(
            "target at 25 C, contrast 0: regulator 8",
            1,
            8,
            (
                "panic: index out of bounds: the len is 8 but the index is 8",
                3,
            ),
        ),
        voltage(
            "target at 25 C, regulator 0, contrast 0: power control 8",
            2,
            8,
            ("3381000", 3),
        ),
        voltage(
            "target at 25 C, regulator 0, contrast 0: booster 4",
            3,
            4,
            ("3381000", 3),
        ),
        voltage(
            "target at 25 C, regulator 0, contrast 0: bias 8",
            4,
            8,
            ("3381000", 3),
        ),
        voltage(
            "target at 25 C, regulator 0, contrast 0: slope 2",
            5,
            2,
            ("3381000", 3),
        ),
        voltage(
            "target at 25 C, regulator 0, contrast 0: trim 16",
            6,
            16,
            ("3381000", 3),
        ),
        voltage(
            "target at 25 C, regulator 0, contrast 0: OTP control 4",
            7,
            4,
            ("3381000", 3),
        ),
    ]
}

/// Power-on with the display on and its scan running from 0 at 129024 Hz,
/// changed, and driven at a moment. The answer is the common.
fn driven(
    input: &'static str,
    change: impl FnOnce(&mut Chip),
    now: u128,
    recorded: Recorded,
) -> Difference {
    let mut chip = Chip::of(&Controller::new());
    chip.scan.put_clock(ClockState {
        at: 0,
        p: 129_024,
        q: 1,
        fraction: 0,
        ordinal: 0,
    });
    chip.power.display_on = true;
    chip.power.oscillator_enabled = true;
    change(&mut chip);
    let (ram, icons) = ([0; 4096], [0; 256]);
    let state = chip.state(&ram, &icons);
    let lent = Lent {
        ram: &ram,
        icons: &icons,
    };
    let ours = match ffi_scan::drive(&ChipWords::of(&chip), now, lent, &mut [0; 12], &mut 0) {
        0 => Ok(()),
        number => Err(number),
    };
    differs(
        input,
        || state.drive(now).map(|drive| drive.common),
        ours,
        recorded,
    )
}

fn clock_of(chip: &mut Chip) -> &mut Parts {
    chip.scan.clock.as_mut().expect("a clock that runs")
}

fn scans() -> Vec<Difference> {
    let second = 1 << 64;
    vec![
        driven("drive at 2^32 s", |_| (), END, ("Ok(Some(0))", 1)),
        driven(
            "drive at 1 s: the scan's rate 1/1, no LCD rate",
            |chip| chip.scan.rate = (1, 1),
            second,
            ("Ok(Some(0))", 4),
        ),
        driven(
            "drive at 1 s: ordinal 1, last edge at 0",
            |chip| clock_of(chip).ordinal = 1,
            second,
            ("Ok(Some(0))", 5),
        ),
        driven(
            "drive at 1 s: the scan's rate 128016/1, its clock of 129024 Hz",
            |chip| chip.scan.rate.0 = 128_016,
            second,
            ("Ok(Some(0))", 5),
        ),
        driven(
            "drive at 1 s: fraction 129024",
            |chip| clock_of(chip).fraction = 129_024,
            second,
            ("Ok(Some(127))", 5),
        ),
        driven(
            "drive at 0: the scan's row 129",
            |chip| chip.scan.row = 129,
            0,
            ("Ok(Some(1))", 4),
        ),
        driven(
            "drive at 1 s: gray mode 8",
            |chip| chip.display.gray_mode = 8,
            second,
            ("Ok(Some(0))", 3),
        ),
    ]
}

pub fn run() -> bool {
    let mut good = true;
    let lower = [clocks(), voltages(), scans()].into_iter().flatten();
    for difference in lower.chain(differences_controller::all()) {
        let Difference {
            input,
            original,
            ours,
            recorded,
        } = difference;
        let same = (original.as_str(), ours) == (recorded.0, Some(recorded.1));
        let verdict = if same { "as recorded" } else { "CHANGED    " };
        let ours = ours.map_or("an answer".to_string(), |number| {
            format!("refused as {number}")
        });
        println!("{verdict} {input}: original {original}; ours {ours}");
        good &= same;
    }
    good
}
