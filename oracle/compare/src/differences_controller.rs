//! Where our controller is meant to answer otherwise than the original's: states
//! and groups that fail document 01's checks, and moments from 2^32 s on.
use crate::{
    block::block,
    call::{Call, Ours, Step},
    differences::{differs, Difference, Recorded},
    side::{ClockState, END},
    state::clock_image,
};
use original::ask::{
    clock::micros,
    controller::{Controller, PIXELS},
};
use std::fmt::Debug;

/// A selected controller.
fn selected() -> Controller {
    let mut controller = Controller::new();
    controller.select(true);
    controller
}

/// A selected controller with one part changed.
fn with(name: &str, image: &[u8]) -> Controller {
    let mut controller = selected();
    controller.put(name, image).expect("a field");
    controller
}

/// What the original's call gives, and the number of ours.
fn called<T: Debug>(
    input: &'static str,
    state: Controller,
    (call, now): (Call, u128),
    original: impl FnOnce(Controller) -> T,
    recorded: Recorded,
) -> Difference {
    let mut ours = Ours {
        block: block(&state).to_vec(),
        ram: state.ram().to_vec(),
        icons: state.icons().to_vec(),
        image: vec![0; PIXELS],
    };
    let ours = match ours.ask(&Step { now, call }).number {
        0 => Ok(()),
        number => Err(number),
    };
    differs(input, || original(state), ours, recorded)
}

fn group(bits: u8, count: u8) -> Call {
    Call::Group { bits, count }
}

fn serial() -> Vec<Difference> {
    let shift = |mut state: Controller| {
        state.shift_in(2, 1, 0).expect("a group");
        state.number("shift")
    };
    vec![
        called(
            "shift_in: 7 bits under way, 9 bits 0 (without overflow checks Ok)",
            with("bits", &[7]),
            (group(0, 9), 0),
            |mut state| state.shift_in(0, 9, 0),
            ("panic: attempt to shift right with overflow", 7),
        ),
        called(
            "shift_in: bits 2, count 1, gives shift",
            selected(),
            (group(2, 1), 0),
            shift,
            ("Some(2)", 7),
        ),
        called(
            "pending byte 0: a command byte",
            with("pending", &[1, 0]),
            (group(0, 8), 0),
            |mut state| state.byte(0, 0),
            ("Err(Internal(\"unrecognized pending LCD parameter\"))", 3),
        ),
        called(
            "serial_effect_edges: bits 8, clock low (without overflow checks 255)",
            with("bits", &[8]),
            (Call::Edges(false), 0),
            |state| state.serial_effect_edges(false),
            ("panic: attempt to subtract with overflow", 3),
        ),
    ]
}

fn settings() -> Vec<Difference> {
    let mut column = with("column_byte", &[255, 255]);
    column.command_data(true);
    let mut common = with("initial_com", &[161]);
    for byte in [0xab, 0xaf] {
        common.byte(byte, 0).expect("a command");
    }
    vec![
        called(
            "column 65535: a data byte (without overflow checks Ok)",
            column,
            (group(0, 8), 0),
            |mut state| state.byte(0, 0),
            ("panic: attempt to add with overflow", 3),
        ),
        called(
            "first common 161, driven: render (without overflow checks an image)",
            common,
            (Call::Render, 0),
            |state| state.render(&mut [0; PIXELS]),
            ("panic: attempt to subtract with overflow", 3),
        ),
    ]
}

/// States that `validate` accepts.
fn clocks() -> Vec<Difference> {
    let clock = |p: u64, ordinal: u64| {
        clock_image(&ClockState {
            at: 0,
            p,
            q: 1,
            fraction: 0,
            ordinal,
        })
    };
    let far = with("scan.clock", &clock(129_024, u64::MAX - 65_536));
    vec![
        called(
            "restore: the scan's rate 1/1",
            with("scan.rate.0", &1u64.to_le_bytes()),
            (Call::Restore, 0),
            |state| state.validate(0),
            ("Ok(())", 4),
        ),
        called(
            "restore: the scan's rate 129024/1, its clock of 16128 Hz",
            with("scan.clock", &clock(16_128, 0)),
            (Call::Restore, 0),
            |state| state.validate(0),
            ("Ok(())", 5),
        ),
        called(
            "restore: ordinal 2^64 - 65537 at 0",
            far.clone(),
            (Call::Restore, 0),
            |state| state.validate(0),
            ("Ok(())", 5),
        ),
        called(
            "ordinal 2^64 - 65537 at 0: a byte at 1 s",
            far,
            (group(0xe3, 8), 1 << 64),
            |mut state| state.byte(0xe3, 1 << 64),
            ("Err(Time(Overflow))", 5),
        ),
    ]
}

fn ends() -> Vec<Difference> {
    let mut fallen = selected();
    fallen.set_supply(0, 0).expect("a fall");
    let mut waiting = fallen.clone();
    let wait = END - micros(21);
    waiting.set_supply(3000, wait).expect("a rise");
    vec![
        called(
            "set_supply: 0 at 0, then 1650 at 2^128 - 1 fraction units",
            fallen,
            (Call::Supply(1650), u128::MAX),
            |mut state| state.set_supply(1650, u128::MAX),
            ("Err(Time(Overflow))", 1),
        ),
        called(
            "at_deadline: a wait that ends at 2^32 s, at its end; gives ready",
            waiting,
            (Call::AtDeadline, END),
            |mut state| {
                state.at_deadline(END);
                state.deadline()
            },
            ("None", 1),
        ),
    ]
}

pub fn all() -> impl Iterator<Item = Difference> {
    [serial(), settings(), clocks(), ends()]
        .into_iter()
        .flatten()
}
