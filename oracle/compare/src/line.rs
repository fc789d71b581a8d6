//! The serial line as a reader of the calls knows it, by document 01's rules and
//! not by a state: selected, supplied, ready, awaiting a parameter, the bits of
//! the byte under way. By it, what may be struck out of a list (demand 3).
use crate::{
    call::{Call, Step},
    paper_controller::awaits,
    side::END,
};
use original::ask::clock::micros;

/// A call, and what is struck of it: an update, if not 0; of a group these bits,
/// each in its place.
#[derive(Clone, Copy, Debug, PartialEq, Eq)]
pub struct Marked {
    pub step: Step,
    pub struck: u8,
}

/// The bits of a call and their count. One edge is a group of one.
pub fn group(call: Call) -> Option<(u8, u8)> {
    match call {
        Call::Rising(bit) => Some((u8::from(bit), 1)),
        Call::Group { bits, count } => Some((bits, count)),
        _ => None,
    }
}

/// Whether no bit of a group is set at or above its count, which is up to 8.
pub fn whole_group(bits: u8, count: u8) -> bool {
    count <= 8 && u16::from(bits) < 1 << count
}

/// A whole byte that was taken.
#[derive(Clone, Copy, Debug, PartialEq, Eq)]
pub struct Byte {
    pub value: u8,
    pub data: bool,
    pub parameter: bool,
    pub struck: bool,
}

impl Byte {
    /// An empty command, which may be struck.
    pub fn is_empty(&self) -> bool {
        !self.data && !self.parameter && self.value == 0xe3
    }
}

#[derive(Clone, Copy)]
pub struct Line {
    pub selected: bool,
    pub data: bool,
    pub supplied: bool,
    cold: bool,
    /// When the start-up wait ends.
    pub wait: Option<u128>,
    pub awaiting: bool,
    /// How many bits of the byte under way were taken, what they are, and
    /// whether they are struck.
    pub held: u8,
    value: u8,
    struck: bool,
}

impl Line {
    /// At power-on.
    pub const ON: Self = Self {
        selected: false,
        data: false,
        supplied: true,
        cold: false,
        wait: None,
        awaiting: false,
        held: 0,
        value: 0,
        struck: false,
    };
    pub fn takes(&self) -> bool {
        self.selected && self.supplied && self.wait.is_none()
    }
    /// One bit: the byte that it ends.
    pub fn bit(&mut self, bit: bool, struck: bool) -> Option<Byte> {
        if !self.takes() {
            return None;
        }
        self.held += 1;
        self.value = self.value << 1 | u8::from(bit);
        self.struck = struck;
        if self.held < 8 {
            return None;
        }
        let byte = Byte {
            value: self.value,
            data: self.data,
            parameter: !self.data && self.awaiting,
            struck,
        };
        (self.held, self.value, self.struck) = (0, 0, false);
        if !self.data {
            self.awaiting = !self.awaiting && awaits(u64::from(byte.value));
        }
        Some(byte)
    }
    fn select(&mut self, on: bool) {
        if self.selected != on {
            (self.held, self.value) = (0, 0);
        }
        self.selected = on;
    }
    fn supply(&mut self, rail: u16, now: u128) {
        let supplied = rail >= 1650;
        if self.supplied && !supplied {
            self.select(false);
            self.wait = None;
        }
        self.cold |= rail == 0;
        if supplied && !self.supplied && self.cold {
            *self = Self {
                cold: true,
                wait: Some(now + micros(21)),
                ..Self::ON
            };
        }
        self.supplied = supplied;
    }
    /// A call that has no bits; one that is refused for its time does nothing.
    pub fn call(&mut self, step: &Step) {
        match step.call {
            Call::Select(on) => self.select(on),
            Call::Data(on) => self.data = on,
            Call::Supply(rail) if step.now < END => self.supply(rail, step.now),
            Call::AtDeadline if self.wait == Some(step.now) && step.now < END => {
                self.wait = None;
                self.cold = false;
            }
            _ => (),
        }
    }
    /// Goes on by a call: the byte that it ends, and whether what is struck of it
    /// may be. A byte is struck whole or not at all, and only if it is an empty
    /// command; `memory` says that RAM and icons have their lengths.
    pub fn follow(&mut self, marked: &Marked, memory: bool) -> (Option<Byte>, bool) {
        let Marked { step, struck } = marked;
        let Some((bits, count)) = group(step.call) else {
            let half = self.struck;
            self.call(step);
            let update = *struck == 0 || step.call == Call::Update;
            return (None, update && (!half || self.held != 0));
        };
        if !memory || step.now >= END || !whole_group(bits, count) {
            return (None, *struck == 0);
        }
        let (mut ended, mut good) = (None, u16::from(*struck) < 1 << count);
        for place in (0..count).rev() {
            let (bit, struck) = (bits >> place & 1 != 0, struck >> place & 1 != 0);
            good &= if self.takes() {
                self.held == 0 || self.struck == struck
            } else {
                !struck
            };
            let byte = self.bit(bit, struck);
            good &= byte.is_none_or(|byte| !byte.struck || byte.is_empty());
            ended = ended.or(byte);
        }
        (ended, good)
    }
}

/// Whether all that is struck of a list from power-on may be, and no byte is left
/// half struck.
pub fn allowed(list: &[Marked], memory: bool) -> bool {
    let mut line = Line::ON;
    list.iter().all(|marked| line.follow(marked, memory).1) && !line.struck
}

/// Whether no moment is before one of an earlier call. Here calls that take none
/// have one too.
pub fn never_fall(list: &[Marked]) -> bool {
    list.windows(2)
        .all(|pair| pair[0].step.now <= pair[1].step.now)
}

/// The whole bytes that a list sends, each with the places of its eight bits: the
/// call and the bit in it.
pub fn bytes(list: &[Marked], memory: bool) -> Vec<(Byte, Vec<(usize, u8)>)> {
    let (mut line, mut under_way, mut all) = (Line::ON, Vec::new(), Vec::new());
    for (index, marked) in list.iter().enumerate() {
        let Marked { step, struck } = marked;
        match group(step.call) {
            None => line.call(step),
            Some((bits, count)) if memory && step.now < END && whole_group(bits, count) => {
                for place in (0..count).rev() {
                    if line.takes() {
                        under_way.push((index, place));
                    }
                    let byte = line.bit(bits >> place & 1 != 0, struck >> place & 1 != 0);
                    if let Some(byte) = byte {
                        all.push((byte, std::mem::take(&mut under_way)));
                    }
                }
            }
            Some(_) => (),
        }
        if line.held == 0 {
            under_way.clear();
        }
    }
    all
}

/// A call without what is struck of it: nothing is left of an update, or of a
/// group that is emptied.
pub fn left(marked: &Marked) -> Option<Step> {
    let Marked { step, struck } = *marked;
    let Some((bits, count)) = group(step.call) else {
        return (struck == 0).then_some(step);
    };
    if struck == 0 {
        return Some(step);
    }
    let (mut kept, mut number) = (0, 0);
    for place in (0..count).rev().filter(|place| struck >> place & 1 == 0) {
        kept = kept << 1 | bits >> place & 1;
        number += 1;
    }
    let call = Call::Group {
        bits: kept,
        count: number,
    };
    (number != 0).then_some(Step { call, ..step })
}
