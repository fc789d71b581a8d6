//! Random states of the whole controller that pass every check of document 01's
//! table, each field free within its range, and calls that go on from a state.
use crate::{
    block::{
        block, chip_of, Block, Place, BITS, CLOCK, COLD, COLUMN, DATA, PAGE, PENDING, READY, SAVED,
        SELECTED, SHIFT, SUPPLIED, SUPPLY,
    },
    call::{Call, Step},
    ffi::words,
    paper_controller::awaits,
    random::Random,
    side::END,
    state::GAPS,
    valid,
};
use original::ask::controller::Controller;

/// Where a list of calls starts.
#[derive(Clone, Debug)]
pub struct Start {
    pub block: Block,
    pub ram: Vec<u8>,
    pub icons: Vec<u8>,
}

/// The bytes that await a parameter.
pub fn awaiting() -> Vec<u8> {
    (0..=255).filter(|byte| awaits(u64::from(*byte))).collect()
}

/// Any state that passes the checks.
pub fn free(random: &mut Random) -> Start {
    let chip = valid::chip(random);
    let (ram, icons) = valid::memory(random);
    let mut block = block(&chip.state(&[0; 4096], &[0; 256]));
    SELECTED.put(&mut block, u64::from(!random.one_in(8)));
    DATA.put(&mut block, u64::from(random.one_in(3)));
    BITS.put(&mut block, random.below(8));
    // Bits that no call leaves there are taken as the original takes them.
    let shift = match random.below(3) {
        0 => random.below(256),
        _ => random.below(1 << BITS.get(&block)),
    };
    SHIFT.put(&mut block, shift);
    if random.one_in(3) {
        PENDING.put_option(&mut block, Some([u64::from(random.pick(&awaiting()))]));
    }
    PAGE.put(&mut block, random.below(17));
    let column = random.below(256);
    COLUMN.put(&mut block, random.pick(&[column, column, 254, 255]));
    if random.one_in(2) {
        SAVED.put_option(&mut block, Some([random.below(256)]));
    }
    if random.one_in(8) {
        SUPPLY.put(&mut block, random.pick(&[0, 1, 1649, 1650]));
    }
    let supplied = SUPPLY.get(&block) >= 1650;
    SUPPLIED.put(&mut block, u64::from(supplied));
    COLD.put(&mut block, u64::from(random.one_in(2)));
    if READY.get(&block) != 0 {
        let end = valid::moment(random, &chip);
        READY.put_option(&mut block, Some(words(end)));
    }
    Start { block, ram, icons }
}

/// Power-on, with memory that holds anything.
pub fn power_on(random: &mut Random) -> Start {
    let (ram, icons) = valid::memory(random);
    Start {
        block: block(&Controller::new()),
        ram,
        icons,
    }
}

/// Bytes that start and stop something: oscillator, power save, display, icons,
/// duty, gray mode, inversion, rate, reset, column.
const BYTES: [u8; 28] = [
    0xab, 0xab, 0xaf, 0xa8, 0xa9, 0xe1, 0xa3, 0xa2, 0x2f, 0x48, 0x10, 0x80, 0x4c, 0x01, 0x00, 0x90,
    0x93, 0x97, 0xf7, 0x02, 0x01, 0xf6, 0x1f, 0xe2, 0xe4, 0xee, 0xe0, 0xe3,
];

/// Bits that go on with the byte under way: any group, or the rest of a byte.
fn bits(random: &mut Random, held: u64) -> Call {
    if random.one_in(2) {
        let count = random.below(9) as u8;
        let bits = random.below(1 << count) as u8;
        return Call::Group { bits, count };
    }
    let count = 8 - held as u8;
    let byte = if random.one_in(2) {
        random.pick(&BYTES)
    } else {
        random.next() as u8
    };
    let bits = byte & (0xff >> held);
    Call::Group { bits, count }
}

fn any_call(random: &mut Random, block: &Block) -> Call {
    match random.below(64) {
        0..=2 => Call::Data(random.one_in(2)),
        3..=4 => Call::Select(!random.one_in(3)),
        5..=6 => {
            let any = random.next() as u16;
            Call::Supply(random.pick(&[0, 1, 1649, 1650, 2399, 2400, 3000, 3600, 3601, any]))
        }
        7 => {
            let any = random.next() as i32;
            let plain = random.below(115_003) as i32 - 30_001;
            Call::Temperature(random.pick(&[any, plain, 25_000]))
        }
        8 => Call::Lose,
        9..=11 => Call::AtDeadline,
        12..=13 => Call::Restore,
        14..=19 => Call::Drive,
        20 => Call::Render,
        21..=22 => Call::Voltages,
        23 => Call::Edges(random.one_in(2)),
        24 => Call::Deadline,
        25 => Call::Update,
        26 if random.one_in(8) => {
            let low = random.below(20_000_000) as u32;
            Call::Find(low, low + random.spread(1 << 20) as u32)
        }
        27..=33 => Call::Rising(random.one_in(2)),
        _ => bits(random, BITS.get(block)),
    }
}

/// What lets bits be taken again, where they are not.
fn reviving(random: &mut Random, block: &Block) -> Option<Call> {
    if SUPPLIED.get(block) == 0 {
        return Some(Call::Supply(random.pick(&[1650, 2400, 3000])));
    }
    if READY.get(block) != 0 {
        return Some(Call::AtDeadline);
    }
    (SELECTED.get(block) == 0).then_some(Call::Select(true))
}

/// How the moments of a list go: close together, or anywhere.
#[derive(Clone, Copy)]
pub struct Pace {
    pub now: u128,
    pub wild: bool,
}

/// The moment of a call: the last one, a little later, or one that matters to
/// the scan, which may be earlier too.
fn moment(random: &mut Random, block: &Block, pace: &Pace) -> u128 {
    let gap = random.pick(&GAPS);
    let later = (pace.now + random.spread(1 << gap)).min(END - 1);
    match random.below(8) {
        0..=1 => pace.now,
        2..=3 => later,
        _ => {
            let about = valid::near(random, &chip_of(block));
            if pace.wild || about.abs_diff(pace.now) < 1 << 70 {
                about
            } else {
                later
            }
        }
    }
}

/// A moment that matters: the end of the wait, the scan's last edge, or one unit
/// about either; or another.
pub fn due(random: &mut Random, block: &Block, other: u128, places: &[Place]) -> u128 {
    let Some(at) = random.pick(places).time(block).filter(|at| *at < END) else {
        return other;
    };
    let about = [at, at, (at + 1).min(END - 1), at.saturating_sub(1), other];
    random.pick(&about)
}

/// A call that goes on from a state. The moments go on from it.
pub fn step(random: &mut Random, block: &Block, pace: &mut Pace) -> Step {
    let revived = random.one_in(3).then(|| reviving(random, block)).flatten();
    let call = revived.unwrap_or_else(|| any_call(random, block));
    let mut now = moment(random, block, pace);
    match call {
        Call::AtDeadline => now = due(random, block, now, &[READY]),
        Call::Restore => now = due(random, block, now, &[READY, CLOCK]),
        _ => (),
    }
    pace.now = now;
    Step { now, call }
}
