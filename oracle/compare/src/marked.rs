//! Random lists of calls from power-on for demand 3: bytes cut anywhere over
//! groups with other calls between, many of them empty commands (E3), many
//! updates, and moments that never fall.
use crate::{
    block::{chip_of, Block},
    call::{Call, Step},
    chip_words::ChipWords,
    ffi_scan,
    line::{bytes, group, whole_group, Line, Marked},
    random::Random,
    side::END,
    valid,
};
use original::ask::clock::micros;

/// What a list is given besides its calls: RAM and icons, how long an image is, and
/// whether the original is asked too.
pub struct Given {
    pub ram: Vec<u8>,
    pub icons: Vec<u8>,
    pub pixels: usize,
    pub original: bool,
}

impl Given {
    /// Anything; once in a while something of another length.
    pub fn any(random: &mut Random) -> Self {
        let (mut ram, mut icons) = valid::memory(random);
        let mut pixels = 6144;
        match random.below(256) {
            0 => ram.truncate(4095),
            1 => icons.push(0),
            2..=3 => pixels += 1,
            _ => (),
        }
        Self {
            ram,
            icons,
            pixels,
            original: true,
        }
    }
    /// Whether RAM and icons have their lengths.
    pub fn memory(&self) -> bool {
        (self.ram.len(), self.icons.len()) == (4096, 256)
    }
}

/// Bytes that make the scan run and the glass driven.
const OPENING: [u8; 4] = [0x2f, 0xaf, 0xab, 0xab];

/// Bytes that change what the scan or the glass shows, some of which await a
/// parameter.
const TELLING: [u8; 42] = [
    0x48, 0x48, 0x4c, 0x4c, 0x44, 0x40, 0x81, 0x8c, 0x8f, 0xf1, 0xf3, 0xf4, 0xf6, 0xf6, 0xf7, 0xf7,
    0x90, 0x91, 0x92, 0x93, 0x97, 0xa2, 0xa3, 0xa1, 0xa7, 0xc8, 0xc0, 0xe4, 0xa9, 0xe1, 0xe1, 0xab,
    0xaf, 0xb0, 0xb1, 0xe2, 0xe0, 0xee, 0x10, 0x00, 0x01, 0xa8,
];

/// Makes the calls of one list, one after another.
pub struct Maker<'a> {
    random: &'a mut Random,
    /// Whether RAM and icons have their lengths.
    memory: bool,
    line: Line,
    now: u128,
    left: u64,
    /// Whether the supply never falls.
    calm: bool,
    /// Whether time mostly stands, so that a quantum sees many bytes.
    still: bool,
    /// Bytes of `OPENING` that are still to be sent.
    opening: usize,
    byte: u8,
}

impl<'a> Maker<'a> {
    pub fn new(random: &'a mut Random, memory: bool, length: u64) -> Self {
        let any = random.below_wide(END);
        let start = random.pick(&[0, 0, micros(1), any]);
        Self {
            memory,
            line: Line::ON,
            // Some lists come to 2^32 s, from where on every moment is refused.
            now: if random.one_in(32) {
                END - micros(500)
            } else {
                start
            },
            left: length,
            calm: random.one_in(2),
            still: random.one_in(3),
            opening: if random.one_in(8) { 0 } else { OPENING.len() },
            byte: 0,
            random,
        }
    }
    /// The next byte, by what it will be.
    fn next_byte(&mut self, line: &Line) -> u8 {
        let any = self.random.next() as u8;
        if !line.takes() {
            return any;
        }
        if line.data {
            return self.random.pick(&[any, any, any, 0xe3]);
        }
        if line.awaiting {
            return self.random.pick(&[any, any, 0, 2, 5, 16, 17, 128, 0xe3]);
        }
        match self.random.below(8) {
            0..=1 => 0xe3,
            _ if self.opening != 0 => {
                self.opening -= 1;
                OPENING[self.opening]
            }
            2 => 0xe3,
            3..=6 => self.random.pick(&TELLING),
            _ => any,
        }
    }
    /// A group that goes on with the byte under way and then with another.
    fn bits(&mut self) -> Call {
        let rest = 8 - self.line.held;
        let any = self.random.below(9) as u8;
        let count = self.random.pick(&[any, any, rest, 8]);
        let (mut line, mut bits) = (self.line, 0);
        for _ in 0..count {
            if line.held == 0 {
                self.byte = self.next_byte(&line);
            }
            let bit = self.byte >> (7 - line.held) & 1;
            bits = bits << 1 | bit;
            line.bit(bit != 0, false);
        }
        if count == 1 && self.random.one_in(2) {
            return Call::Rising(bits != 0);
        }
        Call::Group { bits, count }
    }
    /// A group that is refused.
    fn bad_group(&mut self) -> Call {
        let count = self.random.below(10) as u8;
        let bits = self.random.next() as u8;
        if whole_group(bits, count) {
            return Call::Group { bits, count: 9 };
        }
        Call::Group { bits, count }
    }
    fn rail(&mut self) -> u16 {
        let any = self.random.next() as u16;
        if self.calm {
            return self
                .random
                .pick(&[2399, 2400, 3000, 3000, 3600, any | 2048]);
        }
        self.random
            .pick(&[0, 1, 1, 1649, 1650, 2400, 3000, 3000, 3600, any])
    }
    /// What lets bits be taken again, where they are not.
    fn reviving(&mut self) -> Option<Call> {
        if !self.line.supplied {
            return Some(Call::Supply(self.random.pick(&[1650, 2400, 3000, 3000])));
        }
        match self.line.wait {
            Some(end) if end < self.now => return Some(Call::Supply(1)),
            Some(_) => return Some(Call::AtDeadline),
            None => (),
        }
        (!self.line.selected).then_some(Call::Select(true))
    }
    fn call(&mut self) -> Call {
        if self.left == 0 {
            return Call::Drive;
        }
        if self.random.one_in(2) {
            if let Some(call) = self.reviving() {
                return call;
            }
        }
        match self.random.below(64) {
            0..=1 => Call::Data(self.random.one_in(2)),
            2 if self.line.data => Call::Data(false),
            3 => Call::Select(self.random.one_in(2)),
            4 => Call::Supply(self.rail()),
            5 => {
                let any = self.random.next() as i32;
                Call::Temperature(self.random.pick(&[any, any % 90_000, 25_000]))
            }
            6 => Call::AtDeadline,
            7..=16 => Call::Update,
            17..=23 => Call::Drive,
            24 => Call::Render,
            25 => Call::Voltages,
            26 => self.bad_group(),
            _ => self.bits(),
        }
    }
    /// The same moment, a few microseconds or seconds later, or one about an edge
    /// of the scan, a row end or a frame end.
    fn moment(&mut self, call: Call, block: &Block) -> u128 {
        if let (Call::AtDeadline, Some(end)) = (call, self.line.wait) {
            if end >= self.now && !self.random.one_in(4) {
                return end;
            }
        }
        if self.still && !self.random.one_in(8) {
            return self.now;
        }
        let part = self.random.below_wide(micros(1));
        let few = self.now + micros(self.random.below(12)) + self.random.pick(&[0, part]);
        // Bits come close together, so that settings wait for the scan to take them.
        let bits = group(call).is_some();
        match self.random.below(16) {
            0..=3 => self.now,
            4..=6 => few,
            7 => self.now + self.random.spread(1 << 64),
            8 if self.random.one_in(8) => self.now + (u128::from(self.random.below(5)) << 64),
            8..=13 if bits => self.random.pick(&[self.now, few]),
            _ => {
                let mut chip = ChipWords::of(&chip_of(block));
                ffi_scan::count_to(&mut chip, self.now, &mut 0);
                let about = valid::near(self.random, &chip.chip());
                if about >= self.now && about - self.now < 1 << 65 {
                    about
                } else {
                    few
                }
            }
        }
    }
    /// The next call, from the state that the one before left. The state is only
    /// looked at for the edges of its clock.
    pub fn step(&mut self, block: &Block) -> Option<Step> {
        self.left = self.left.checked_sub(1)?;
        let call = self.call();
        let now = self.moment(call, block);
        self.now = now;
        let step = Step { now, call };
        let waited = self.line.wait.is_some();
        let marked = Marked { step, struck: 0 };
        self.line.follow(&marked, self.memory);
        if self.line.wait.is_some() && !waited {
            self.opening = OPENING.len();
        }
        Some(step)
    }
}

/// The bits of a byte, or an update as one bit: each by its call and the place in
/// it.
pub type Unit = Vec<(usize, u8)>;

/// What may be struck of a list: every update, every empty command.
pub fn units(list: &[Marked], memory: bool) -> Vec<Unit> {
    let update = |(_, marked): &(usize, &Marked)| marked.step.call == Call::Update;
    let updates = list.iter().enumerate().filter(update);
    let empty = bytes(list, memory).into_iter();
    let empty = empty.filter(|(byte, _)| byte.is_empty());
    updates
        .map(|(index, _)| vec![(index, 0)])
        .chain(empty.map(|(_, places)| places))
        .collect()
}

/// The list with these units struck and nothing else.
pub fn struck(list: &[Marked], units: &[Unit]) -> Vec<Marked> {
    let mut list = list.to_vec();
    list.iter_mut().for_each(|marked| marked.struck = 0);
    for (index, place) in units.iter().flatten() {
        list[*index].struck |= 1 << place;
    }
    list
}

/// The list with some of what may be struck.
pub fn strike(random: &mut Random, list: &[Marked], memory: bool) -> Vec<Marked> {
    let (updates, empty) = (random.pick(&[1, 1, 2, 4]), random.pick(&[1, 1, 2, 4]));
    let mut some = units(list, memory);
    some.retain(|unit| random.one_in(if unit.len() == 1 { updates } else { empty }));
    struck(list, &some)
}
