//! The whole state of a controller as the block of words that our library takes:
//! the fields of the original in their order, each with the place of its first
//! word there. Nothing else knows the order of the block.
use crate::{
    chip::{Analog, Chip, Display, Power, Scan},
    ffi::{parts, wide, words},
};
use original::ask::controller::Controller;

pub const WORDS: usize = nt7508::STATE_WORDS;
pub type Block = [u64; WORDS];

/// What a word may be: a yes or no, or a number of so many bytes. A wide number
/// is two words, high first.
#[derive(Clone, Copy, PartialEq, Eq)]
enum Form {
    Flag,
    Byte,
    Short,
    /// A signed number, counted from the lowest.
    Signed,
    Word,
    Wide,
}
use Form::{Byte, Flag, Short, Signed, Wide, Word};

/// A field: its name, its place, and what it holds, in an Option or not. An
/// Option begins with a yes or no.
struct Field(&'static str, usize, bool, &'static [Form]);

const PARTS: [Form; 6] = [Wide, Wide, Word, Word, Word, Word];

const FIELDS: [Field; 55] = [
    Field("selected", SELECTED.0, false, &[Flag]),
    Field("data", DATA.0, false, &[Flag]),
    Field("shift", SHIFT.0, false, &[Byte]),
    Field("bits", BITS.0, false, &[Byte]),
    Field("pending", PENDING.0, true, &[Byte]),
    Field("page", PAGE.0, false, &[Byte]),
    Field("column_byte", COLUMN.0, false, &[Short]),
    Field("start_line", 27, false, &[Byte]),
    Field("icon_enabled", 28, false, &[Flag]),
    Field("display_on", 55, false, &[Flag]),
    Field("entire_on", 29, false, &[Flag]),
    Field("reverse", 30, false, &[Flag]),
    Field("segment_reverse", 31, false, &[Flag]),
    Field("common_reverse", 32, false, &[Flag]),
    Field("power_save", 56, false, &[Flag]),
    Field("contrast", 47, false, &[Byte]),
    Field("saved_column", SAVED.0, true, &[Short]),
    Field("initial_com", 33, false, &[Byte]),
    Field("duty", 34, false, &[Byte]),
    Field("inversion_lines", 35, false, &[Byte]),
    Field("regulator", 50, false, &[Byte]),
    Field("power_control", 51, false, &[Byte]),
    Field("booster", 52, false, &[Byte]),
    Field("bias", 53, false, &[Byte]),
    Field("gray_mode", 36, false, &[Byte]),
    Field("palette", 37, false, &[Byte; 8]),
    Field("temperature_slope", 54, false, &[Byte]),
    Field("oscillator_control", 45, false, &[Byte]),
    Field("oscillator_frequency", 46, false, &[Byte]),
    Field("contrast_trim", 48, false, &[Byte]),
    Field("otp_control", 49, false, &[Byte]),
    Field("oscillator_enabled", 57, false, &[Flag]),
    Field("scan.clock", CLOCK.0, true, &PARTS),
    Field("scan.rate.0", 9, false, &[Word]),
    Field("scan.rate.1", 10, false, &[Word]),
    Field("scan.duty", 14, false, &[Byte]),
    Field("scan.icon", 15, false, &[Flag]),
    Field("scan.initial_com", 16, false, &[Byte]),
    Field("scan.common_reverse", 17, false, &[Flag]),
    Field("scan.start_line", 18, false, &[Byte]),
    Field("scan.pwm", 20, false, &[Byte]),
    Field("scan.frc_count", 19, false, &[Byte]),
    Field("scan.row", 21, false, &[Byte]),
    Field("scan.step", 22, false, &[Byte]),
    Field("scan.frc", 23, false, &[Byte]),
    Field("scan.inversion_lines", 24, false, &[Byte]),
    Field("scan.inversion_count", 25, false, &[Byte]),
    Field("scan.inverted", 26, false, &[Flag]),
    Field("scan.segments", 11, false, &[Word; 2]),
    Field("scan.latched", LATCHED.0, false, &[Flag]),
    Field("supplied", SUPPLIED.0, false, &[Flag]),
    Field("supply_millivolts", SUPPLY.0, false, &[Short]),
    Field("temperature_millicelsius", 60, false, &[Signed]),
    Field("cold", COLD.0, false, &[Flag]),
    Field("ready", READY.0, true, &[Wide]),
];

/// Where a field stands, for other files.
#[derive(Clone, Copy)]
pub struct Place(usize);

pub const CLOCK: Place = Place(0);
pub const LATCHED: Place = Place(13);
pub const SUPPLIED: Place = Place(58);
pub const SUPPLY: Place = Place(59);
pub const COLD: Place = Place(61);
pub const READY: Place = Place(62);
pub const PAGE: Place = Place(65);
pub const COLUMN: Place = Place(66);
pub const SAVED: Place = Place(67);
pub const SELECTED: Place = Place(69);
pub const DATA: Place = Place(70);
pub const SHIFT: Place = Place(71);
pub const BITS: Place = Place(72);
pub const PENDING: Place = Place(73);

impl Place {
    /// Its word; of an Option 1 if there is something, or 0.
    pub fn get(self, block: &Block) -> u64 {
        block[self.0]
    }
    pub fn put(self, block: &mut Block, word: u64) {
        block[self.0] = word;
    }
    /// The first words of what is in an Option. A time is two, seconds first; a
    /// clock begins with its last edge.
    pub fn option<const N: usize>(self, block: &Block) -> Option<[u64; N]> {
        let words = std::array::from_fn(|index| block[self.0 + 1 + index]);
        (block[self.0] != 0).then_some(words)
    }
    /// The same as one number.
    pub fn time(self, block: &Block) -> Option<u128> {
        self.option(block).map(|[high, low]| wide(high, low))
    }
    pub fn put_option<const N: usize>(self, block: &mut Block, words: Option<[u64; N]>) {
        block[self.0] = u64::from(words.is_some());
        block[self.0 + 1..=self.0 + N].copy_from_slice(&words.unwrap_or([0; N]));
    }
}

/// The scan's rate.
pub fn rate(block: &Block) -> (u64, u64) {
    (block[9], block[10])
}

impl Form {
    /// How many bytes it has in an image.
    fn bytes(self) -> usize {
        match self {
            Flag | Byte => 1,
            Short => 2,
            Signed => 4,
            Word => 8,
            Wide => 16,
        }
    }
    /// One more than the largest word of it.
    fn limit(self) -> u128 {
        match self {
            Flag => 2,
            Byte => 1 << 8,
            Short => 1 << 16,
            Signed => 1 << 32,
            Word | Wide => 1 << 64,
        }
    }
}

/// The temperature of a word, and back.
pub fn signed(word: u64) -> i32 {
    (word as u32 ^ 1 << 31) as i32
}

/// The number at the front of an image, which it leaves.
fn take(image: &mut &[u8], length: usize) -> u128 {
    let (head, rest) = image.split_at(length);
    *image = rest;
    head.iter()
        .rev()
        .fold(0, |number, byte| number << 8 | u128::from(*byte))
}

/// The block of the image of all fields but RAM and icons.
pub fn block_of(mut image: &[u8]) -> Block {
    let mut block = [0; WORDS];
    for Field(_, place, option, forms) in &FIELDS {
        let mut at = *place;
        if *option {
            block[at] = take(&mut image, 1) as u64;
            if block[at] == 0 {
                continue;
            }
            at += 1;
        }
        for form in *forms {
            let number = take(&mut image, form.bytes());
            match form {
                Wide => {
                    block[at..at + 2].copy_from_slice(&words(number));
                    at += 1;
                }
                Signed => block[at] = number as u64 ^ 1 << 31,
                _ => block[at] = number as u64,
            }
            at += 1;
        }
    }
    block
}

/// The block of a state, for places where speed does not matter.
pub fn block(state: &Controller) -> Block {
    let mut image = Vec::new();
    state.registers(&mut image);
    block_of(&image)
}

/// The state of a block that fits, with this memory.
pub fn state(block: &Block, ram: &[u8], icons: &[u8]) -> Controller {
    let mut image = [ram, icons].concat();
    for Field(_, place, option, forms) in &FIELDS {
        let mut at = *place;
        if *option {
            image.push(block[at] as u8);
            if block[at] == 0 {
                continue;
            }
            at += 1;
        }
        for form in *forms {
            let low = block[at].to_le_bytes();
            match form {
                Wide => {
                    image.extend(block[at + 1].to_le_bytes());
                    image.extend(low);
                    at += 1;
                }
                Signed => image.extend(signed(block[at]).to_le_bytes()),
                _ => image.extend(&low[..form.bytes()]),
            }
            at += 1;
        }
    }
    Controller::from_image(&image).expect("the image of a state")
}

/// One more than the largest number of each word.
pub fn limits() -> [u128; WORDS] {
    let mut limits = [0; WORDS];
    for Field(_, place, option, forms) in &FIELDS {
        let mut at = *place;
        if *option {
            limits[at] = Flag.limit();
            at += 1;
        }
        for form in *forms {
            let words = if *form == Wide { 2 } else { 1 };
            limits[at..at + words].fill(form.limit());
            at += words;
        }
    }
    limits
}

/// Whether a block holds a state: its length, and each word by its field.
pub fn fits(block: &[u64]) -> bool {
    let limits = limits();
    block.len() == WORDS
        && block
            .iter()
            .zip(limits)
            .all(|(word, limit)| u128::from(*word) < limit)
}

/// What the scan layer reads of a block that fits.
pub fn chip_of(block: &Block) -> Chip {
    let byte = |place: usize| block[place] as u8;
    let flag = |place: usize| block[place] != 0;
    let bytes = |place: usize| std::array::from_fn(|index| block[place + index] as u8);
    let clock: [u64; 8] = std::array::from_fn(|index| block[1 + index]);
    Chip {
        display: Display {
            start_line: byte(27),
            icon_enabled: flag(28),
            entire_on: flag(29),
            reverse: flag(30),
            segment_reverse: flag(31),
            common_reverse: flag(32),
            initial_com: byte(33),
            duty: byte(34),
            inversion_lines: byte(35),
            gray_mode: byte(36),
            palette: bytes(37),
            oscillator_control: byte(45),
            oscillator_frequency: byte(46),
        },
        analog: Analog {
            contrast: byte(47),
            contrast_trim: byte(48),
            otp_control: byte(49),
            regulator: byte(50),
            power_control: byte(51),
            booster: byte(52),
            bias: byte(53),
            temperature_slope: byte(54),
        },
        power: Power {
            display_on: flag(55),
            power_save: flag(56),
            oscillator_enabled: flag(57),
            supply_millivolts: SUPPLY.get(block) as u16,
            temperature_millicelsius: signed(block[60]),
            waiting: flag(READY.0),
        },
        scan: Scan {
            clock: flag(CLOCK.0).then(|| parts(&clock)),
            rate: rate(block),
            duty: byte(14),
            icon: flag(15),
            initial_com: byte(16),
            common_reverse: flag(17),
            start_line: byte(18),
            pwm: byte(20),
            frc_count: byte(19),
            row: byte(21),
            step: byte(22),
            frc: byte(23),
            inversion_lines: byte(24),
            inversion_count: byte(25),
            inverted: flag(26),
            segments: [block[11], block[12]],
            latched: flag(LATCHED.0),
        },
    }
}

/// The fields of a block that are not as at power-on, by the original's names.
pub fn show(block: &Block) -> String {
    let fresh = self::block(&Controller::new());
    let mut out = Vec::new();
    for Field(name, place, option, forms) in &FIELDS {
        let wide = forms.iter().filter(|form| **form == Wide).count();
        let all = *place..place + usize::from(*option) + forms.len() + wide;
        if block[all.clone()] != fresh[all.clone()] {
            out.push(format!("{name} {:?}", &block[all]));
        }
    }
    out.join(", ")
}

#[cfg(test)]
mod tests {
    use super::*;
    use crate::{random::Random, valid};

    /// Every field of the original but its memory is in the block, each word of
    /// the block in one field, and a state comes back from its block.
    #[test]
    fn the_block_is_the_state() {
        let names: Vec<&str> = FIELDS.iter().map(|field| field.0).collect();
        assert_eq!(names, Controller::names()[2..]);
        assert!(limits().iter().all(|limit| *limit != 0));
        let mut random = Random::new(1);
        for _ in 0..1000 {
            let (ram, icons) = valid::memory(&mut random);
            let chip = valid::chip(&mut random);
            let first = chip.state(&ram, &icons);
            let block = block(&first);
            assert!(fits(&block));
            assert_eq!(chip_of(&block), chip);
            assert!(state(&block, &ram, &icons) == first);
        }
    }
}
