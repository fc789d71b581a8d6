//! The fixed list of the scan layer: valid states with a moment, and the
//! original's answers about each: the scan counted, the drive, its electrodes
//! and the image. Memory is made by a rule, electrodes and image are summed up,
//! so that a line stays short.
use crate::{
    cases::List,
    chip::{scan_of, Chip},
    chip_words::ChipWords,
    compare_scan::{drive_words, level},
    paper_scan,
    random::Random,
    valid,
};
use original::ask::controller::{Controller, PIXELS};

pub fn sum(numbers: impl Iterator<Item = u64>) -> u64 {
    numbers.fold(0, |sum, x| (31 * sum + x) % (1 << 32))
}

/// The bytes of memory from a first one on.
pub fn memory(step: u64, first: u64, length: u64) -> Vec<u8> {
    (0..length)
        .map(|index| ((step * index + first) % 251) as u8)
        .collect()
}

/// A line's kind, and a state as it stands there.
fn state_numbers(chip: &Chip) -> Vec<u64> {
    let bytes = |bytes: &[u8]| bytes.iter().copied().map(u64::from).collect::<Vec<_>>();
    let (chip, power) = (ChipWords::of(chip), &chip.power);
    let mut numbers = vec![6];
    numbers.extend(bytes(&chip.settings));
    numbers.extend(bytes(&chip.analog));
    numbers.extend(chip.words);
    numbers.extend(bytes(&chip.bytes));
    numbers.extend([
        u64::from(power.display_on),
        u64::from(power.oscillator_enabled),
        u64::from(power.supply_millivolts),
        power.temperature_millicelsius as u64,
        u64::from(power.power_save),
        u64::from(power.waiting),
        u64::from(power.driven()),
    ]);
    numbers
}

/// The original's answers.
fn answers(state: &Controller, now: u128) -> Vec<u64> {
    let scan = scan_of(&state.counted(now).expect("a scan"));
    let drive = state.drive(now).expect("a drive");
    let mut pixels = [0; PIXELS];
    state.render(&mut pixels);
    let mut numbers = scan.words().to_vec();
    numbers.extend(scan.bytes().map(u64::from));
    numbers.push(paper_scan::pieces(state, now));
    numbers.extend(drive_words(&drive));
    let electrodes = (0..=255).flat_map(|number| {
        [
            level(drive.common_microvolts(number)),
            level(drive.segment_microvolts(number)),
        ]
    });
    numbers.push(sum(electrodes));
    numbers.push(sum(pixels.into_iter().map(u64::from)));
    numbers
}

/// `count` valid states.
pub fn scan(seed: u64, count: u64) -> bool {
    let mut list = List::new();
    let mut random = Random::new(seed);
    for _ in 0..count {
        let mut chip = valid::chip(&mut random);
        chip.power.temperature_millicelsius = chip.power.temperature_millicelsius.max(0);
        let [step, first] = [random.below(251), random.below(251)];
        let state = chip.state(&memory(step, first, 4096), &memory(step, first + 1, 256));
        let now = valid::moment(&mut random, &chip);
        let mut numbers = state_numbers(&chip);
        numbers.extend([step, first]);
        numbers.extend(crate::ffi::words(now));
        numbers.extend(answers(&state, now));
        list.line(&numbers);
    }
    list.print()
}
