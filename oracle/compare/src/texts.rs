//! Random texts of sessions: lines that make a screen run, and texts with
//! something out of place.
use crate::{
    random::Random,
    session::{LONGEST, NAMES},
};

/// Command bytes that make the glass driven.
const OPENING: [u8; 4] = [171, 175, 47, 165];

/// Command bytes that change what a drive shows, some of which await a parameter.
const TELLING: [u8; 36] = [
    0x48, 0x4c, 0x44, 0x40, 0x81, 0x8c, 0x8e, 0x8f, 0xf1, 0xf3, 0xf4, 0xf6, 0xf7, 0x90, 0x92, 0x93,
    0x97, 0xa2, 0xa3, 0xa1, 0xa4, 0xa5, 0xa7, 0xc8, 0xe4, 0xa9, 0xe1, 0xab, 0xaf, 0xb0, 0xb5, 0xe2,
    0x25, 0x10, 0x00, 0xe3,
];

/// The last microsecond before 2^32 s.
const LAST: u64 = (1 << 32) * 1_000_000 - 1;

/// Makes the lines of one text.
struct Maker<'a> {
    random: &'a mut Random,
    us: u64,
    /// Bytes of `OPENING` that are still to be sent.
    opening: usize,
    /// Whether time mostly stands, and whether it now and then goes back.
    still: bool,
    falls: bool,
    /// Calls that bring the glass back after a fall of the supply, the last first.
    reviving: Vec<&'static str>,
}

impl Maker<'_> {
    fn byte(&mut self) -> u8 {
        let any = self.random.next() as u8;
        match self.random.below(8) {
            0..=1 => any,
            _ if self.opening != 0 => {
                self.opening -= 1;
                OPENING[self.opening]
            }
            2..=5 => self.random.pick(&TELLING),
            _ => self.random.pick(&[0xe3, 0, 2, 16, 64, 128, 255, any]),
        }
    }
    fn moment(&mut self) -> u64 {
        let later = match self.random.below(16) {
            0..=5 => 0,
            6..=9 => self.random.below(12),
            10..=13 => self.random.below(2_000),
            14 => self.random.spread(1 << 28) as u64,
            _ if self.falls => return self.us / 2,
            _ => 1,
        };
        if !self.still || self.random.one_in(4) {
            self.us = (self.us + later).min(LAST);
        }
        self.us
    }
    fn supply(&mut self) -> String {
        let any = self.random.next() as u16;
        let rails = [0, 1649, 1650, 2399, 2400, 3000, 3000, 3600, any];
        let rail = self.random.pick(&rails);
        if rail < 1650 {
            self.reviving = vec!["select 1", "deadline 0", "supply 3000"];
            self.opening = OPENING.len();
        }
        format!("supply {rail}")
    }
    fn call(&mut self) -> String {
        if !self.reviving.is_empty() && self.random.one_in(2) {
            return self.reviving.pop().map_or(String::new(), str::to_string);
        }
        match self.random.below(32) {
            0 => format!("select {}", self.random.pick(&[0, 1, 1, 1])),
            1..=2 => format!("dc {}", self.random.below(2)),
            3 => self.supply(),
            4 => {
                let any = self.random.next() as i32;
                let plain = self.random.below(115_003) as i32 - 30_001;
                let all = [any, plain, plain, 0, -1, i32::MIN, i32::MAX];
                format!("temp {}", self.random.pick(&all))
            }
            5..=6 => "deadline 0".to_string(),
            7..=9 => "update 0".to_string(),
            10..=14 => "drive 0".to_string(),
            _ => format!("byte {}", self.byte()),
        }
    }
    fn line(&mut self) -> String {
        let us = self.moment();
        format!("{us} {}\n", self.call())
    }
}

/// A text of lines that are all well-formed, of up to so many bytes.
pub fn good(random: &mut Random, lines: u64, longest: usize) -> Vec<u8> {
    let mut text = NAMES.to_vec();
    let start = random.spread(u128::from(LAST)) as u64;
    let mut maker = Maker {
        us: random.pick(&[0, 0, 5, start]),
        opening: OPENING.len(),
        still: random.one_in(3),
        falls: random.one_in(3),
        reviving: Vec::new(),
        random,
    };
    text.extend(format!("{} select 1\n", maker.us).bytes());
    for _ in 0..lines {
        let line = maker.line();
        if text.len() + line.len() > longest {
            break;
        }
        text.extend(line.bytes());
    }
    text
}

/// Fields that are malformed, at the end of a range, or behind it.
const FIELDS: [&str; 30] = [
    "",
    "0",
    "00",
    "01",
    "-0",
    "-1",
    "+1",
    "1.",
    "0x1",
    "2",
    "255",
    "256",
    "65535",
    "65536",
    "2147483647",
    "2147483648",
    "-2147483648",
    "-2147483649",
    "4294967295999999",
    "4294967296000000",
    "18446744073709551615",
    "18446744073709551616",
    "99999999999999999999",
    "byte",
    "drive",
    "Drive",
    "temp",
    "refused",
    "us",
    "\t",
];

/// Bytes that matter to a reader of lines.
const BYTES: &[u8] = b" \n\r\t-+0019aeu\0\xff";

/// Another field at a random place of a text.
fn replace_field(random: &mut Random, text: &mut Vec<u8>) {
    let at = random.below(text.len() as u64) as usize;
    let end = |byte: &u8| matches!(byte, b' ' | b'\n');
    let from = text[..at]
        .iter()
        .rposition(end)
        .map_or(0, |place| place + 1);
    let to = text[at..]
        .iter()
        .position(end)
        .map_or(text.len(), |n| at + n);
    text.splice(from..to, random.pick(&FIELDS).bytes());
}

/// Puts one thing out of place.
pub fn damage(random: &mut Random, text: &mut Vec<u8>) {
    if text.is_empty() {
        return text.push(random.pick(BYTES));
    }
    // Mostly behind the names line, which every text needs.
    let low = if random.one_in(8) {
        0
    } else {
        NAMES.len().min(text.len() - 1)
    };
    let at = low + random.below((text.len() - low) as u64) as usize;
    match random.below(8) {
        0 => drop(text.remove(at)),
        1 => text.insert(at, random.pick(BYTES)),
        2 => text[at] = random.pick(BYTES),
        3 => text[at] = random.next() as u8,
        4 => text.truncate(at),
        5 => drop(text.pop()),
        _ => replace_field(random, text),
    }
}

/// The session of document 01.
pub const PAPER: &[u8] = b"us call value\n0 select 1\n0 byte 147\n0 byte 165\n0 byte 47\n\
    0 byte 171\n0 byte 175\n1000 drive 0\n";

/// A whole text of exactly as many bytes as it may have, by a longer moment in its
/// last line.
pub fn longest(random: &mut Random) -> Vec<u8> {
    let line = b"0 drive 0\n";
    let mut text = good(random, u64::MAX, LONGEST - 64);
    while text.len() + 2 * line.len() <= LONGEST {
        text.extend(line);
    }
    let rest = LONGEST - text.len() - line.len();
    text.extend(std::iter::repeat_n(b'1', rest));
    text.extend(line);
    text
}

/// A text of about so many bytes as a session may have, or some more.
fn long(random: &mut Random) -> Vec<u8> {
    let mut text = good(random, u64::MAX, LONGEST);
    match random.below(4) {
        0 => text,
        1 => {
            text.resize(LONGEST, b'0');
            text
        }
        2 => {
            text.resize(LONGEST + 1, b'\n');
            text
        }
        _ => longest(random),
    }
}

/// A text: half of them whole, the others with one to three things out of place,
/// a few very long or of any bytes.
pub fn text(random: &mut Random) -> Vec<u8> {
    match random.below(512) {
        0 => return long(random),
        1..=4 => {
            let length = random.below(200);
            return (0..length).map(|_| random.next() as u8).collect();
        }
        _ => (),
    }
    let lines = random.pick(&[2, 10, 30, 60, 90]);
    let mut text = good(random, lines, LONGEST);
    if random.one_in(2) {
        (0..=random.below(3)).for_each(|_| damage(random, &mut text));
    }
    text
}
