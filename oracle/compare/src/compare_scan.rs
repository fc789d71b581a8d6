//! The scan layer of the original against ours: scans counted, drives with all
//! their electrodes, images, and what bytes, falls and warm rises of the supply
//! make of a scan. States are reached by calls, or are any that pass document
//! 01's checks (`valid.rs`).
use crate::{
    chip::{scan_of, Chip},
    chip_words::ChipWords,
    ffi_scan::{self, Lent},
    paper_checks::accepted,
    paper_scan,
    random::Random,
    shrink,
    side::END,
    state::{reached, started},
    total, valid,
};
use original::{
    ask::{
        caught,
        controller::{Controller, PIXELS},
    },
    devices::nt7508::LcdDrive,
};
use std::collections::BTreeMap;

/// What is compared.
#[derive(Clone, Copy, Debug, PartialEq, Eq, PartialOrd, Ord)]
pub enum Kind {
    Count,
    /// The number of pieces, with that of document 01's rule.
    Pieces,
    /// With the frame of the scan shown.
    Drive,
    /// A drive with its frame, and the 256 numbers of commons and of segments.
    Electrodes,
    Image,
    /// A byte: the scan before it and after it.
    Command(u8),
    Data {
        byte: u8,
        page: u8,
    },
    Fall,
    Rise,
}

impl Kind {
    fn name(self) -> &'static str {
        match self {
            Kind::Count => "scan counted",
            Kind::Pieces => "pieces",
            Kind::Drive => "drive and frame",
            Kind::Electrodes => "drive, frame and 512 electrodes",
            Kind::Image => "image",
            Kind::Command(_) => "scan after a command",
            Kind::Data { .. } => "scan after data",
            Kind::Fall => "scan after a fall of the supply",
            Kind::Rise => "scan after a warm rise",
        }
    }
}

fn lent(state: &Controller) -> Lent<'_> {
    Lent {
        ram: state.ram(),
        icons: state.icons(),
    }
}

/// What both sides answer, where it differs.
fn unequal<T: PartialEq + std::fmt::Debug>(original: T, ours: T) -> Option<String> {
    (original != ours).then(|| format!("original {original:?}\n  ours     {ours:?}"))
}

fn count(state: &Controller, chip: &Chip, now: u128) -> Option<String> {
    let mut ours = ChipWords::of(chip);
    let mut pieces = 99;
    let number = ffi_scan::count_to(&mut ours, now, &mut pieces);
    let counted = state.counted(now).expect("a scan");
    unequal(
        (0, true, scan_of(&counted)),
        (number, pieces <= 4, ours.scan()),
    )
}

fn pieces(state: &Controller, chip: &Chip, now: u128) -> Option<String> {
    let mut pieces = 99;
    ffi_scan::count_to(&mut ChipWords::of(chip), now, &mut pieces);
    unequal(paper_scan::pieces(state, now), u64::from(pieces))
}

/// An absent voltage: one more than the largest present one.
pub fn level(microvolts: Option<u32>) -> u64 {
    microvolts.map_or(1 << 32, u64::from)
}

pub fn drive_words(drive: &LcdDrive) -> [u64; 12] {
    let [v0, v1, v2, v3, v4] = drive.voltages.levels.map(level);
    [
        drive.common.map_or(129, u64::from),
        drive.segments[0],
        drive.segments[1],
        u64::from(drive.inverted),
        u64::from(drive.grounded),
        u64::from(drive.voltages.target),
        level(drive.voltages.pump),
        v0,
        v1,
        v2,
        v3,
        v4,
    ]
}

/// Quanta of a frame without the icon row, of the scan that the original shows.
fn frame(state: &Controller, now: u128) -> u16 {
    let scan = scan_of(&state.fallen(now).expect("a fall"));
    u16::from(scan.duty) * u16::from(scan.pwm)
}

/// The drive, and the frame: none where no common is driven.
fn drive(state: &Controller, chip: &Chip, now: u128) -> Option<String> {
    let drive = state.drive(now).expect("a drive");
    let wanted = drive.common.map_or(0, |_| frame(state, now));
    let (mut out, mut frame) = ([0; 12], 0x5a5a);
    let number = ffi_scan::drive(&ChipWords::of(chip), now, lent(state), &mut out, &mut frame);
    unequal((0, drive_words(&drive), wanted), (number, out, frame))
}

fn electrodes(state: &Controller, now: u128) -> Option<String> {
    let drive = state.drive(now).expect("a drive");
    let out = drive_words(&drive);
    (0..=255).find_map(|number| {
        let levels = [
            level(drive.common_microvolts(number)),
            level(drive.segment_microvolts(number)),
        ];
        let both = unequal(levels, ffi_scan::electrodes(&out, number));
        both.map(|both| format!("common and segment {number}: {both}"))
    })
}

fn image(state: &Controller, chip: &Chip) -> Option<String> {
    let (mut pixels, mut ours) = ([0; PIXELS], [0x5a; PIXELS]);
    state.render(&mut pixels);
    let number = ffi_scan::render(&ChipWords::of(chip), lent(state), &mut ours);
    let at = (0..PIXELS).find(|at| pixels[*at] != ours[*at]).unwrap_or(0);
    unequal((0, at, pixels[at]), (number, at, ours[at]))
}

/// Sends a byte to a copy of the original; ours makes one call before the byte
/// acts, and one with the settings and the memory after it.
fn byte(state: &Controller, chip: &Chip, byte: u8, page: Option<u8>, now: u128) -> Option<String> {
    let mut after = state.clone();
    let mut put = |name: &str, image: &[u8]| after.put(name, image).expect("a field");
    put("selected", &[1]);
    put("bits", &[0]);
    put("data", &[u8::from(page.is_some())]);
    page.iter().for_each(|page| put("page", &[*page]));
    // Without supply or in the wait a byte is not taken.
    put("supplied", &[1]);
    put("ready", &[0]);
    after.byte(byte, now).expect("a byte");
    let mut ours = ChipWords::of(chip);
    let before_number = ffi_scan::before_byte(&mut ours, now, page, lent(state));
    ours = ChipWords::of(&Chip {
        scan: ours.scan(),
        ..Chip::of(&after)
    });
    let after_number = ffi_scan::after_byte(&mut ours, now, chip.power.running(), lent(&after));
    unequal(
        (0, 0, scan_of(&after)),
        (before_number, after_number, ours.scan()),
    )
}

fn fall(state: &Controller, chip: &Chip, now: u128) -> Option<String> {
    let mut after = state.clone();
    after.put("supplied", &[1]).expect("a field");
    after.set_supply(1, now).expect("a fall");
    let mut ours = ChipWords::of(chip);
    let number = ffi_scan::fall(&mut ours, now);
    unequal((0, scan_of(&after)), (number, ours.scan()))
}

fn rise(state: &Controller, chip: &Chip, now: u128) -> Option<String> {
    let mut after = state.clone();
    after.put("supplied", &[0]).expect("a field");
    after.put("cold", &[0]).expect("a field");
    after.set_supply(3000, now).expect("a rise");
    let mut ours = ChipWords::of(chip);
    let number = ffi_scan::after_byte(&mut ours, now, true, lent(state));
    unequal((0, scan_of(&after)), (number, ours.scan()))
}

/// What differs, if anything. A panic of either side is a difference.
fn difference(kind: Kind, state: &Controller, chip: &Chip, now: u128) -> Option<String> {
    let compare = || match kind {
        Kind::Count => count(state, chip, now),
        Kind::Pieces => pieces(state, chip, now),
        Kind::Drive => drive(state, chip, now),
        Kind::Electrodes => drive(state, chip, now).or_else(|| electrodes(state, now)),
        Kind::Image => image(state, chip),
        Kind::Command(command) => byte(state, chip, command, None, now),
        Kind::Data { byte: data, page } => byte(state, chip, data, Some(page), now),
        Kind::Fall => fall(state, chip, now),
        Kind::Rise => rise(state, chip, now),
    };
    caught(compare).unwrap_or_else(|words| Some(format!("panic: {words}")))
}

/// The difference again, from a state as near to power-on as it goes.
fn report(kind: Kind, state: &Controller, chip: &Chip, now: u128) {
    let (ram, icons) = (state.ram(), state.icons());
    let parsed = |numbers: &[u128]| {
        let chip = Chip::of_numbers(numbers)?;
        let now = *numbers.last()?;
        (accepted(&chip) && now < END).then_some((chip, now))
    };
    let fails = |numbers: &[u128]| {
        parsed(numbers).is_some_and(|(chip, now)| {
            difference(kind, &chip.state(ram, icons), &chip, now).is_some()
        })
    };
    let mut numbers = chip.numbers();
    numbers.push(now);
    // A difference that needs more of a reached state is shown as it is.
    let small = if fails(&numbers) {
        shrink::numbers(numbers, &valid::plainest(), fails)
    } else {
        numbers
    };
    let (chip, now) = parsed(&small).unwrap_or((*chip, now));
    let words = difference(kind, &chip.state(ram, icons), &chip, now);
    println!("DIFFERENCE in {kind:?}: {}", words.unwrap_or_default());
    println!(
        "  smallest found: now {now} {chip:?}\n  ram from {:?}",
        &ram[..16]
    );
}

#[derive(Default)]
struct Tally {
    counts: BTreeMap<&'static str, u64>,
    /// How many states were counted in 0 to 4 pieces.
    pieces: [u64; 5],
}

impl Tally {
    /// Compares; true if nothing differs.
    fn same(&mut self, kind: Kind, state: &Controller, chip: &Chip, now: u128) -> bool {
        *self.counts.entry(kind.name()).or_default() += 1;
        if difference(kind, state, chip, now).is_none() {
            return true;
        }
        report(kind, state, chip, now);
        false
    }
    fn print(&self) {
        for (name, count) in &self.counts {
            println!("original = ours: {name}: {count} inputs compared");
        }
        total::add(self.counts.values().sum());
        println!("states counted in 0 to 4 pieces: {:?}", self.pieces);
    }
}

/// Everything about one state. The pieces by document 01's rule are counted
/// quantum by quantum, so for some states only.
fn one(
    tally: &mut Tally,
    random: &mut Random,
    state: &Controller,
    chip: &Chip,
    drives: u64,
) -> bool {
    let now = valid::moment(random, chip);
    let mut pieces = 0;
    ffi_scan::count_to(&mut ChipWords::of(chip), now, &mut pieces);
    tally.pieces[usize::from(pieces)] += 1;
    let mut good = tally.same(Kind::Image, state, chip, now)
        && tally.same(Kind::Fall, state, chip, now)
        && tally.same(Kind::Rise, state, chip, now)
        && tally.same(Kind::Command(random.next() as u8), state, chip, now);
    let data = Kind::Data {
        byte: random.next() as u8,
        page: random.below(17) as u8,
    };
    good = good && tally.same(data, state, chip, now);
    if random.one_in(8) {
        good = good && tally.same(Kind::Pieces, state, chip, now);
    }
    for _ in 0..6 {
        good = good && tally.same(Kind::Count, state, chip, valid::moment(random, chip));
    }
    for number in 0..drives {
        let kind = if number % 16 == 0 {
            Kind::Electrodes
        } else {
            Kind::Drive
        };
        good = good && tally.same(kind, state, chip, valid::moment(random, chip));
    }
    good
}

/// Compares `count` valid states, and a tenth as many that calls reach.
pub fn run(random: &mut Random, count: u64) -> bool {
    let mut tally = Tally::default();
    let mut good = true;
    for _ in 0..count {
        let chip = valid::chip(random);
        let (ram, icons) = valid::memory(random);
        let state = chip.state(&ram, &icons);
        good = good && Chip::of(&state) == chip && one(&mut tally, random, &state, &chip, 56);
    }
    for _ in 0..count / 10 {
        let state = if random.one_in(4) {
            reached(random).0
        } else {
            started(random)
        };
        let chip = Chip::of(&state);
        good = good && one(&mut tally, random, &state, &chip, 56);
    }
    tally.print();
    good
}

/// The driver itself: a field of which ours is told otherwise than the original
/// must be found, each of them.
#[cfg(test)]
mod tests {
    use super::*;

    /// Whether some comparison of some valid state shows another number in
    /// this place.
    fn found(index: usize) -> bool {
        let mut random = Random::new(index as u64);
        (0..4000).any(|_| {
            let chip = valid::chip(&mut random);
            let mut numbers = chip.numbers();
            numbers[index] ^= 1;
            let Some(told) = Chip::of_numbers(&numbers) else {
                return false;
            };
            let (ram, icons) = valid::memory(&mut random);
            let state = chip.state(&ram, &icons);
            let now = valid::moment(&mut random, &chip);
            [Kind::Drive, Kind::Count, Kind::Image]
                .iter()
                .any(|kind| difference(*kind, &state, &told, now).is_some())
        })
    }

    #[test]
    fn every_field_matters() {
        original::ask::quiet_panics();
        let numbers = Chip::of(&Controller::new()).numbers().len();
        let missed: Vec<usize> = (0..numbers).filter(|index| !found(*index)).collect();
        assert_eq!(
            (numbers, missed),
            (61, vec![]),
            "numbers, and those that were not found"
        );
    }
}
