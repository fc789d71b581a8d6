//! The scan of our proved library, on chips.
use crate::{chip::Power, chip_words::ChipWords};
use nt7508::words::scan::{self, Conditions, ScanMut};
pub use nt7508::words::Lent;

/// The display settings of a chip, and its scan to be changed.
fn parts(chip: &mut ChipWords) -> (&[u8; 20], ScanMut<'_>) {
    let ChipWords {
        settings,
        words,
        bytes,
        ..
    } = chip;
    (settings, ScanMut { words, bytes })
}

/// Counts the scan of a chip in place.
pub fn count_to(chip: &mut ChipWords, now: u128, pieces: &mut u8) -> u64 {
    let (settings, scan) = parts(chip);
    scan::count_to(settings, scan, now, pieces)
}

/// Before a data byte for a page, or before a command: counts, and keeps the
/// latch where the byte could alter the row shown.
pub fn before_byte(chip: &mut ChipWords, now: u128, page: Option<u8>, lent: Lent) -> u64 {
    let (settings, scan) = parts(chip);
    scan::before_byte(settings, scan, now, page, lent)
}

/// After a byte or a warm rise: clears inversion, begins the scan, starts or
/// drops its clock.
pub fn after_byte(chip: &mut ChipWords, now: u128, was_running: bool, lent: Lent) -> u64 {
    let running = chip.power.running();
    let (settings, scan) = parts(chip);
    scan::after_byte(settings, scan, now, (was_running, running), lent)
}

/// A fall of the supply: counts, and drops the clock.
pub fn fall(chip: &mut ChipWords, now: u128) -> u64 {
    let (settings, scan) = parts(chip);
    scan::fall(settings, scan, now)
}

pub fn render(chip: &ChipWords, lent: Lent, image: &mut [u8]) -> u64 {
    scan::render(&chip.settings, chip.power.driven(), lent, image)
}

fn conditions(power: &Power) -> Conditions {
    Conditions {
        display_on: power.display_on,
        oscillator_enabled: power.oscillator_enabled,
        millivolts: power.supply_millivolts,
        millicelsius: power.temperature_millicelsius,
        power_save: power.power_save,
        waiting: power.waiting,
    }
}

/// The drive, and the frame of the scan shown: duty × PWM, or 0 if undriven.
pub fn drive(chip: &ChipWords, now: u128, lent: Lent, out: &mut [u64; 12], frame: &mut u16) -> u64 {
    let settings = (&chip.settings, &chip.analog);
    let scan = (&chip.words, &chip.bytes);
    scan::drive(
        settings,
        scan,
        &conditions(&chip.power),
        now,
        lent,
        out,
        frame,
    )
}

/// A common's and a segment's voltage; 2^32 for none.
pub fn electrodes(drive: &[u64; 12], number: u8) -> [u64; 2] {
    [
        scan::common_microvolts(drive, number),
        scan::segment_microvolts(drive, number),
    ]
}
