//! The calls of the controller, each asked of the original and of ours, with all
//! that they answer.
use crate::{
    block::{block_of, chip_of, Block},
    chip::scan_of,
    compare_scan::{drive_words, level},
    paper::target_at,
    paper_scan,
};
use nt7508::words::{controller, words, Lent, LentMut};
use original::{
    ask::controller::{Controller, PIXELS},
    signals::Event,
    Error,
};

/// A call, without its moment.
#[derive(Clone, Copy, Debug, PartialEq, Eq)]
pub enum Call {
    Rising(bool),
    Group {
        bits: u8,
        count: u8,
    },
    Select(bool),
    Data(bool),
    Supply(u16),
    Temperature(i32),
    Lose,
    AtDeadline,
    /// The scan stays as counted to the moment, which the original does not have.
    Update,
    Restore,
    Drive,
    Render,
    Voltages,
    /// `serial_effect_edges`, with the clock's level.
    Edges(bool),
    Deadline,
    /// The setting finder, with its band.
    Find(u32, u32),
}

impl Call {
    pub fn name(self) -> &'static str {
        match self {
            Call::Rising(_) => "rising",
            Call::Group { .. } => "shift_in",
            Call::Select(_) => "select",
            Call::Data(_) => "command_data",
            Call::Supply(_) => "set_supply",
            Call::Temperature(_) => "set_temperature",
            Call::Lose => "lose_volatile",
            Call::AtDeadline => "at_deadline",
            Call::Update => "update",
            Call::Restore => "restore",
            Call::Drive => "drive",
            Call::Render => "render",
            Call::Voltages => "voltages",
            Call::Edges(_) => "serial_effect_edges",
            Call::Deadline => "deadline",
            Call::Find(..) => "find_setting",
        }
    }
}

#[derive(Clone, Copy, Debug, PartialEq, Eq)]
pub struct Step {
    pub now: u128,
    pub call: Call,
}

/// The number of the refusal, or 0, and the words of what a call gives: an event
/// (8), pieces (1), a drive with its frame length (13), voltages (7), edges (1),
/// the end of the wait (3), whether there is a pair (1). An image stands apart.
#[derive(Clone, Copy, Debug, PartialEq, Eq)]
pub struct Answer {
    pub number: u64,
    pub words: [u64; 13],
}

impl Answer {
    fn of(number: u64, given: &[u64]) -> Self {
        let mut words = [0; 13];
        words[..given.len()].copy_from_slice(given);
        Self { number, words }
    }
}

/// The words of an event, or of none.
fn event_words(event: Option<&Event>) -> [u64; 8] {
    match event {
        None => [0; 8],
        Some(Event::LcdWrite {
            at,
            page,
            column_byte,
            value,
        }) => {
            let [seconds, fraction] = words(at.raw());
            let [page, column, value] =
                [u64::from(*page), u64::from(*column_byte), u64::from(*value)];
            [1, page, column, value, 0, 0, seconds, fraction]
        }
        Some(Event::LcdControl {
            at,
            command,
            parameter,
        }) => {
            let [seconds, fraction] = words(at.raw());
            let (mark, parameter) = parameter.map_or((0, 0), |byte| (1, u64::from(byte)));
            [
                2,
                0,
                0,
                u64::from(*command),
                mark,
                parameter,
                seconds,
                fraction,
            ]
        }
        Some(other) => panic!("an event of another device: {other:?}"),
    }
}

/// What the original answers to bits: one event at the most.
fn told(done: Result<(), Error>, events: &[Event]) -> Answer {
    done.expect("bits that are taken");
    assert!(events.len() < 2, "two events of a call: {events:?}");
    Answer::of(0, &event_words(events.first()))
}

/// The original's drive with the frame length, which is that of the counted
/// scan, and 0 where no common is driven.
fn driven(state: &Controller, now: u128) -> Answer {
    let drive = state.drive(now).expect("a drive");
    let frame = drive.common.map_or(0, |_| {
        let scan = scan_of(&state.fallen(now).expect("a fall"));
        u64::from(scan.duty) * u64::from(scan.pwm)
    });
    let mut words = [0; 13];
    words[..12].copy_from_slice(&drive_words(&drive));
    words[12] = frame;
    Answer::of(0, &words)
}

/// Whether any of the 512 pairs has its target in the band.
fn found(block: &Block, (low, high): (u32, u32)) -> Answer {
    let chip = chip_of(block);
    let (analog, temperature) = (chip.analog.bytes(), chip.power.temperature_millicelsius);
    let mut pairs = (0..8).flat_map(|regulator| (0..64).map(move |contrast| (regulator, contrast)));
    let any = pairs.any(|pair| (low..=high).contains(&target_at(analog, temperature, pair)));
    Answer::of(0, &[u64::from(any)])
}

/// The original with what it answers besides: an image, and its fields.
pub struct Theirs {
    pub state: Controller,
    pub image: [u8; PIXELS],
    registers: Vec<u8>,
}

impl Theirs {
    pub fn new(state: Controller) -> Self {
        Self {
            state,
            image: [0; PIXELS],
            registers: Vec::new(),
        }
    }
    pub fn block(&mut self) -> Block {
        self.registers.clear();
        self.state.registers(&mut self.registers);
        block_of(&self.registers)
    }
    /// Makes a call. The state passes document 01's checks, so that only
    /// `restore` is refused, where `validate` has an error.
    pub fn ask(&mut self, step: &Step) -> Answer {
        let Step { now, call } = *step;
        let state = &mut self.state;
        state.events.clear();
        match call {
            Call::Rising(bit) => told(state.rising(bit, now), &state.events),
            Call::Group { bits, count } => told(state.shift_in(bits, count, now), &state.events),
            Call::Select(on) => {
                state.select(on);
                Answer::of(0, &[])
            }
            Call::Data(on) => {
                state.command_data(on);
                Answer::of(0, &[])
            }
            Call::Supply(rail) => {
                state.set_supply(rail, now).expect("a supply");
                Answer::of(0, &[])
            }
            Call::Temperature(millicelsius) => {
                state.set_temperature(millicelsius);
                Answer::of(0, &[])
            }
            Call::Lose => {
                state.lose_volatile();
                Answer::of(0, &[])
            }
            Call::AtDeadline => {
                state.at_deadline(now);
                Answer::of(0, &[])
            }
            Call::Update => {
                let pieces = paper_scan::pieces(state, now);
                *state = state.counted(now).expect("a scan");
                Answer::of(0, &[pieces])
            }
            Call::Restore => Answer::of(if state.validate(now).is_ok() { 0 } else { 6 }, &[]),
            Call::Drive => driven(state, now),
            Call::Render => {
                state.render(&mut self.image);
                Answer::of(0, &[])
            }
            Call::Voltages => {
                let voltages = state.voltages();
                let mut words = [
                    u64::from(voltages.target),
                    level(voltages.pump),
                    0,
                    0,
                    0,
                    0,
                    0,
                ];
                words[2..].copy_from_slice(&voltages.levels.map(level));
                Answer::of(0, &words)
            }
            Call::Edges(high) => Answer::of(0, &[u64::from(state.serial_effect_edges(high))]),
            Call::Deadline => match state.deadline() {
                Some(end) => {
                    let [seconds, fraction] = words(end);
                    Answer::of(0, &[1, seconds, fraction])
                }
                None => Answer::of(0, &[]),
            },
            Call::Find(low, high) => found(&self.block(), (low, high)),
        }
    }
}

/// What is lent to ours: the state, RAM and icons, an image. Any lengths.
#[derive(Clone, Debug, PartialEq, Eq)]
pub struct Ours {
    pub block: Vec<u64>,
    pub ram: Vec<u8>,
    pub icons: Vec<u8>,
    pub image: Vec<u8>,
}

/// What stands where an answer goes, so that one that is not written shows.
const OLD: u64 = 0x5a5a_5a5a;

/// What a refused call answers: nothing is written.
pub fn refused(call: Call, number: u64) -> Answer {
    match call {
        Call::Rising(_) | Call::Group { .. } => Answer::of(number, &[OLD; 8]),
        Call::Drive => {
            let mut words = [OLD; 13];
            words[12] = u64::from(OLD as u16);
            Answer::of(number, &words)
        }
        Call::Voltages => Answer::of(number, &[OLD; 7]),
        Call::Update | Call::Edges(_) => Answer::of(number, &[u64::from(OLD as u8)]),
        Call::Deadline => Answer::of(number, &[OLD; 3]),
        Call::Find(..) => Answer::of(number, &[OLD]),
        _ => Answer::of(number, &[]),
    }
}

impl Ours {
    pub fn ask(&mut self, step: &Step) -> Answer {
        let Step { now, call } = *step;
        let mut event = [OLD; 8];
        let lent = Lent {
            ram: &self.ram,
            icons: &self.icons,
        };
        match call {
            Call::Rising(bit) => {
                let lent = LentMut {
                    ram: &mut self.ram,
                    icons: &mut self.icons,
                };
                let number = controller::rising(&mut self.block, bit, now, lent, &mut event);
                Answer::of(number, &event)
            }
            Call::Group { bits, count } => {
                let lent = LentMut {
                    ram: &mut self.ram,
                    icons: &mut self.icons,
                };
                let group = (bits, count);
                let number = controller::shift_in(&mut self.block, group, now, lent, &mut event);
                Answer::of(number, &event)
            }
            Call::Select(on) => Answer::of(controller::select(&mut self.block, on), &[]),
            Call::Data(on) => Answer::of(controller::command_data(&mut self.block, on), &[]),
            Call::Supply(rail) => {
                Answer::of(controller::set_supply(&mut self.block, rail, now), &[])
            }
            Call::Temperature(millicelsius) => Answer::of(
                controller::set_temperature(&mut self.block, millicelsius),
                &[],
            ),
            Call::Lose => {
                let lent = LentMut {
                    ram: &mut self.ram,
                    icons: &mut self.icons,
                };
                Answer::of(controller::lose_volatile(&mut self.block, lent), &[])
            }
            Call::AtDeadline => Answer::of(controller::at_deadline(&mut self.block, now), &[]),
            Call::Update => {
                let mut pieces = OLD as u8;
                let number = controller::update(&mut self.block, now, &mut pieces);
                Answer::of(number, &[u64::from(pieces)])
            }
            Call::Restore => Answer::of(controller::restore(&mut self.block, now, lent), &[]),
            Call::Drive => {
                let (mut out, mut frame) = ([OLD; 12], OLD as u16);
                let number = controller::drive(&self.block, now, lent, &mut out, &mut frame);
                let mut words = [u64::from(frame); 13];
                words[..12].copy_from_slice(&out);
                Answer::of(number, &words)
            }
            Call::Render => Answer::of(controller::render(&self.block, lent, &mut self.image), &[]),
            Call::Voltages => {
                let mut out = [OLD; 7];
                Answer::of(controller::voltages(&self.block, &mut out), &out)
            }
            Call::Edges(high) => {
                let mut out = OLD as u8;
                let number = controller::serial_effect_edges(&self.block, high, &mut out);
                Answer::of(number, &[u64::from(out)])
            }
            Call::Deadline => {
                let mut out = [OLD; 3];
                Answer::of(controller::deadline(&self.block, &mut out), &out)
            }
            Call::Find(low, high) => {
                let mut out = [OLD; 3];
                let number = controller::find_setting(&self.block, (low, high), &mut out);
                Answer::of(number, &[self.judged(out, (low, high))])
            }
        }
    }
    /// Whether there is a pair: 1, or 0, or 2 where the pair is outside the band.
    /// Refused, what stood there.
    fn judged(&self, out: [u64; 3], (low, high): (u32, u32)) -> u64 {
        match (out, <&Block>::try_from(&self.block[..])) {
            ([1, regulator @ 0..=7, contrast @ 0..=63], Ok(block)) => {
                let chip = chip_of(block);
                let pair = (regulator as u8, contrast as u8);
                let target = target_at(
                    chip.analog.bytes(),
                    chip.power.temperature_millicelsius,
                    pair,
                );
                if (low..=high).contains(&target) {
                    1
                } else {
                    2
                }
            }
            ([0, 0, 0], _) => 0,
            ([OLD, OLD, OLD], _) => OLD,
            _ => 2,
        }
    }
}
