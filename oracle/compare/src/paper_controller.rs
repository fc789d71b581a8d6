//! Document 01's table of refusals for the controller, plainly written, and
//! number 20, which the C functions add for a block that holds no state.
use crate::{
    any::Refused,
    block::{
        chip_of, fits, Block, BITS, CLOCK, COLUMN, PAGE, PENDING, READY, SAVED, SUPPLIED, SUPPLY,
    },
    call::{Call, Ours, Step},
    paper_checks::{display, scan, settings, time},
};

/// The bytes that await a parameter.
pub fn awaits(byte: u64) -> bool {
    matches!(byte, 0x40..=0x4f | 0x81 | 0x88..=0x8f | 0xf1 | 0xf3 | 0xf4 | 0xf6 | 0xf7)
}

fn row(number: u64, good: bool) -> Refused<()> {
    good.then_some(()).ok_or(number)
}

/// Numbers 3, 4 and 5.
pub fn state(block: &Block) -> Refused<()> {
    let chip = chip_of(block);
    let awaited = |[byte]: [u64; 1]| awaits(byte);
    let column = |[column]: [u64; 1]| column < 256;
    let good = BITS.get(block) < 8
        && PENDING.option(block).is_none_or(awaited)
        && PAGE.get(block) <= 16
        && COLUMN.get(block) < 256
        && SAVED.option(block).is_none_or(column)
        && SUPPLIED.get(block) == u64::from(SUPPLY.get(block) >= 1650);
    row(3, good)?;
    display(&chip.display)?;
    settings(chip.analog.bytes())?;
    scan(&chip.scan)
}

/// Number 6.
fn restored(block: &Block, now: u128) -> Refused<()> {
    let clock = CLOCK.time(block).is_none_or(|at| at <= now);
    let ready = READY.time(block).is_none_or(|end| end >= now);
    row(6, clock && ready)
}

/// Number 7.
fn group(bits: u8, count: u8) -> Refused<()> {
    row(7, count <= 8 && u16::from(bits) < 1 << count)
}

/// The first refusal of a call, in the table's order.
pub fn checks(lent: &Ours, step: &Step) -> Refused<()> {
    let Step { now, call } = *step;
    row(20, fits(&lent.block))?;
    let block: &Block = lent.block[..].try_into().expect("a block that fits");
    let memory = || row(2, (lent.ram.len(), lent.icons.len()) == (4096, 256));
    match call {
        Call::Rising(_) | Call::Group { .. } | Call::Restore | Call::Drive => {
            memory()?;
            time(now)?;
            state(block)?;
        }
        Call::Lose => {
            memory()?;
            state(block)?;
        }
        Call::Render => {
            memory()?;
            row(8, lent.image.len() == 6144)?;
            state(block)?;
        }
        Call::Supply(_) | Call::AtDeadline | Call::Update => {
            time(now)?;
            state(block)?;
        }
        _ => state(block)?,
    }
    match call {
        Call::Restore => restored(block, now),
        Call::Group { bits, count } => group(bits, count),
        _ => Ok(()),
    }
}
