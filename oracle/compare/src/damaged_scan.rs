//! Refusals of the scan layer: states with some field out of place, memory and
//! images of other lengths, moments from 2^32 s on. Each call must answer the
//! number of document 01's table, the first in its order, and then leave every
//! lent byte as it was.
use crate::{
    any::Refused,
    chip_words::ChipWords,
    ffi_scan::{self, Lent},
    paper_checks,
    random::Random,
    side::END,
    total, valid,
};
use std::collections::BTreeMap;

/// A question with any numbers.
struct Any {
    chip: ChipWords,
    now: u128,
    ram: Vec<u8>,
    icons: Vec<u8>,
    image: Vec<u8>,
    /// The page of a data byte, or a command.
    page: Option<u8>,
    was_running: bool,
}

const CALLS: [&str; 6] = [
    "count",
    "before byte",
    "after byte",
    "fall",
    "drive",
    "image",
];

impl Any {
    fn memory(&self) -> Refused<()> {
        let good = (self.ram.len(), self.icons.len()) == (4096, 256);
        good.then_some(()).ok_or(2)
    }
    fn checks(&self, call: &str) -> Refused<()> {
        let chip = self.chip.chip();
        if !matches!(call, "count" | "fall") {
            self.memory()?;
        }
        if call == "image" {
            let good = self.image.len() == 6144;
            good.then_some(()).ok_or(8u64)?;
            return paper_checks::display(&chip.display);
        }
        paper_checks::time(self.now)?;
        paper_checks::display(&chip.display)?;
        if call == "drive" {
            paper_checks::settings(self.chip.analog)?;
        }
        paper_checks::scan(&chip.scan)
    }
    /// What ours answers, and whether anything that was lent is changed.
    fn answer(&self, call: &str) -> (u64, bool) {
        let mut chip = self.chip;
        let lent = Lent {
            ram: &self.ram,
            icons: &self.icons,
        };
        let (mut pieces, mut image) = (99, self.image.clone());
        let (mut drive, mut frame) = ([77; 12], 7777);
        let number = match call {
            "count" => ffi_scan::count_to(&mut chip, self.now, &mut pieces),
            "before byte" => ffi_scan::before_byte(&mut chip, self.now, self.page, lent),
            "after byte" => ffi_scan::after_byte(&mut chip, self.now, self.was_running, lent),
            "fall" => ffi_scan::fall(&mut chip, self.now),
            "drive" => ffi_scan::drive(&chip, self.now, lent, &mut drive, &mut frame),
            _ => ffi_scan::render(&chip, lent, &mut image),
        };
        let same = (chip, pieces, drive, frame) == (self.chip, 99, [77; 12], 7777);
        (number, !same || image != self.image)
    }
}

/// Changes one field: by 1, to a boundary, or to anything.
fn damage(random: &mut Random, chip: &mut ChipWords) {
    let byte = |random: &mut Random, old: u8| match random.below(3) {
        0 => old.wrapping_add(random.pick(&[1, 255])),
        1 => random.pick(&[0, 2, 3, 4, 8, 15, 16, 32, 33, 34, 64, 127, 128, 129, 255]),
        _ => random.next() as u8,
    };
    match random.below(4) {
        0 => {
            let index = random.below(20) as usize;
            chip.settings[index] = byte(random, chip.settings[index]);
        }
        1 => {
            let index = random.below(14) as usize;
            chip.bytes[index] = byte(random, chip.bytes[index]);
        }
        2 => {
            let index = random.below(8) as usize;
            chip.analog[index] = byte(random, chip.analog[index]);
        }
        _ => {
            let index = random.below(11) as usize;
            let old = chip.words[index];
            chip.words[index] = match random.below(4) {
                0 => old.wrapping_add(1),
                1 => old.wrapping_sub(1),
                2 => random.spread(1 << 64) as u64,
                _ => random.pick(&[0, 1, 1 << 32, (1 << 32) - 1, 129_024, 130_032, u64::MAX]),
            };
        }
    }
}

fn length(random: &mut Random, right: usize) -> usize {
    let other = random.pick(&[0, right - 1, right + 1, 1, 2 * right]);
    if random.one_in(16) {
        other
    } else {
        right
    }
}

fn any(random: &mut Random) -> Any {
    let good = valid::chip(random);
    let now = match random.below(8) {
        0 => END,
        1 => END + random.spread(u128::MAX - END),
        _ => valid::moment(random, &good),
    };
    let mut chip = ChipWords::of(&good);
    (0..random.below(4)).for_each(|_| damage(random, &mut chip));
    Any {
        chip,
        now,
        ram: vec![0x5a; length(random, 4096)],
        icons: vec![1; length(random, 256)],
        image: vec![0x5a; length(random, 6144)],
        page: random.one_in(2).then(|| random.below(17) as u8),
        was_running: random.one_in(2),
    }
}

/// Compares `count` questions with any numbers. True if nothing differs.
pub fn run(random: &mut Random, count: u64) -> bool {
    let mut counts: BTreeMap<(&str, u64), u64> = BTreeMap::new();
    for _ in 0..count {
        let question = any(random);
        for call in CALLS {
            let wanted = question.checks(call).err().unwrap_or(0);
            let (number, changed) = question.answer(call);
            if number != wanted || (wanted != 0 && changed) {
                println!("DIFFERENCE in {call}: the table {wanted}, ours {number}, lent arrays changed: {changed}");
                println!(
                    "  now {} ram {} icons {} image {} page {:?} was running {} {:?}",
                    question.now,
                    question.ram.len(),
                    question.icons.len(),
                    question.image.len(),
                    question.page,
                    question.was_running,
                    question.chip
                );
                return false;
            }
            *counts.entry((call, wanted)).or_default() += 1;
        }
    }
    total::add(counts.values().sum());
    for call in CALLS {
        let of_call = counts.iter().filter(|((name, _), _)| *name == call);
        let words: Vec<String> = of_call
            .map(|((_, number), count)| {
                format!(
                    "{count} {}",
                    match number {
                        0 => "answered".to_string(),
                        _ => format!("refused as {number}"),
                    }
                )
            })
            .collect();
        println!(
            "paper = ours: refusals of {call}: {count} inputs compared ({})",
            words.join(", ")
        );
    }
    true
}
