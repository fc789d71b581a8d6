//! The scan, the drive and the image. `include/nt7508.h` has the order of the
//! display settings' bytes and of the scan's words and bytes.
use super::{words, Lent};
use crate::{ANALOG_BYTES, DISPLAY_BYTES, DRIVE_WORDS, SCAN_BYTES, SCAN_WORDS};

extern "C" {
    fn nt7508_scan_count_to(
        settings: &[u8; DISPLAY_BYTES],
        words: &mut [u64; SCAN_WORDS],
        bytes: &mut [u8; SCAN_BYTES],
        seconds: u64,
        fraction: u64,
        pieces: &mut u8,
    ) -> u64;
    fn nt7508_scan_before_byte(
        ram: *const u8,
        ram_bytes: usize,
        icons: *const u8,
        icon_bytes: usize,
        settings: &[u8; DISPLAY_BYTES],
        words: &mut [u64; SCAN_WORDS],
        bytes: &mut [u8; SCAN_BYTES],
        seconds: u64,
        fraction: u64,
        data: bool,
        page: u8,
    ) -> u64;
    fn nt7508_scan_after_byte(
        ram: *const u8,
        ram_bytes: usize,
        icons: *const u8,
        icon_bytes: usize,
        settings: &[u8; DISPLAY_BYTES],
        words: &mut [u64; SCAN_WORDS],
        bytes: &mut [u8; SCAN_BYTES],
        seconds: u64,
        fraction: u64,
        was_running: bool,
        running: bool,
    ) -> u64;
    fn nt7508_scan_fall(
        settings: &[u8; DISPLAY_BYTES],
        words: &mut [u64; SCAN_WORDS],
        bytes: &mut [u8; SCAN_BYTES],
        seconds: u64,
        fraction: u64,
    ) -> u64;
    fn nt7508_scan_render(
        ram: *const u8,
        ram_bytes: usize,
        icons: *const u8,
        icon_bytes: usize,
        image: *mut u8,
        image_bytes: usize,
        settings: &[u8; DISPLAY_BYTES],
        driven: bool,
    ) -> u64;
    fn nt7508_scan_drive(
        ram: *const u8,
        ram_bytes: usize,
        icons: *const u8,
        icon_bytes: usize,
        words: &[u64; SCAN_WORDS],
        bytes: &[u8; SCAN_BYTES],
        settings: &[u8; DISPLAY_BYTES],
        analog: &[u8; ANALOG_BYTES],
        display_on: bool,
        oscillator_enabled: bool,
        millivolts: u16,
        temperature: i32,
        power_save: bool,
        waiting: bool,
        seconds: u64,
        fraction: u64,
        out: &mut [u64; DRIVE_WORDS],
        frame: &mut u16,
    ) -> u64;
    fn nt7508_scan_common_microvolts(drive: &[u64; DRIVE_WORDS], common: u8) -> u64;
    fn nt7508_scan_segment_microvolts(drive: &[u64; DRIVE_WORDS], segment: u8) -> u64;
}

/// The words and bytes of a scan.
#[derive(Debug)]
pub struct ScanMut<'a> {
    /// The clock, the rate and the latch.
    pub words: &'a mut [u64; SCAN_WORDS],
    /// The other fields.
    pub bytes: &'a mut [u8; SCAN_BYTES],
}

/// The power of a drive.
#[derive(Clone, Copy, Debug)]
pub struct Conditions {
    /// The display is on.
    pub display_on: bool,
    /// The oscillator is on.
    pub oscillator_enabled: bool,
    /// The supply.
    pub millivolts: u16,
    /// The temperature.
    pub millicelsius: i32,
    /// Power save is on.
    pub power_save: bool,
    /// The start-up wait lasts.
    pub waiting: bool,
}

/// Counts the scan to a moment.
#[inline]
pub fn count_to(settings: &[u8; DISPLAY_BYTES], scan: ScanMut, now: u128, pieces: &mut u8) -> u64 {
    let [seconds, fraction] = words(now);
    unsafe { nt7508_scan_count_to(settings, scan.words, scan.bytes, seconds, fraction, pieces) }
}

/// Before a data byte for a page, or before a command.
#[inline]
pub fn before_byte(
    settings: &[u8; DISPLAY_BYTES],
    scan: ScanMut,
    now: u128,
    page: Option<u8>,
    lent: Lent,
) -> u64 {
    let [seconds, fraction] = words(now);
    unsafe {
        nt7508_scan_before_byte(
            lent.ram.as_ptr(),
            lent.ram.len(),
            lent.icons.as_ptr(),
            lent.icons.len(),
            settings,
            scan.words,
            scan.bytes,
            seconds,
            fraction,
            page.is_some(),
            page.unwrap_or(0),
        )
    }
}

/// After a byte or a warm rise, by whether the scan ran before and runs after.
#[inline]
pub fn after_byte(
    settings: &[u8; DISPLAY_BYTES],
    scan: ScanMut,
    now: u128,
    (was_running, running): (bool, bool),
    lent: Lent,
) -> u64 {
    let [seconds, fraction] = words(now);
    unsafe {
        nt7508_scan_after_byte(
            lent.ram.as_ptr(),
            lent.ram.len(),
            lent.icons.as_ptr(),
            lent.icons.len(),
            settings,
            scan.words,
            scan.bytes,
            seconds,
            fraction,
            was_running,
            running,
        )
    }
}

/// A fall of the supply.
#[inline]
pub fn fall(settings: &[u8; DISPLAY_BYTES], scan: ScanMut, now: u128) -> u64 {
    let [seconds, fraction] = words(now);
    unsafe { nt7508_scan_fall(settings, scan.words, scan.bytes, seconds, fraction) }
}

/// The gray image.
#[inline]
pub fn render(settings: &[u8; DISPLAY_BYTES], driven: bool, lent: Lent, image: &mut [u8]) -> u64 {
    unsafe {
        nt7508_scan_render(
            lent.ram.as_ptr(),
            lent.ram.len(),
            lent.icons.as_ptr(),
            lent.icons.len(),
            image.as_mut_ptr(),
            image.len(),
            settings,
            driven,
        )
    }
}

/// The drive, and the frame length of the scan shown, 0 if undriven.
#[inline]
#[allow(clippy::too_many_arguments)]
pub fn drive(
    settings: (&[u8; DISPLAY_BYTES], &[u8; ANALOG_BYTES]),
    scan: (&[u64; SCAN_WORDS], &[u8; SCAN_BYTES]),
    conditions: &Conditions,
    now: u128,
    lent: Lent,
    out: &mut [u64; DRIVE_WORDS],
    frame: &mut u16,
) -> u64 {
    let [seconds, fraction] = words(now);
    unsafe {
        nt7508_scan_drive(
            lent.ram.as_ptr(),
            lent.ram.len(),
            lent.icons.as_ptr(),
            lent.icons.len(),
            scan.0,
            scan.1,
            settings.0,
            settings.1,
            conditions.display_on,
            conditions.oscillator_enabled,
            conditions.millivolts,
            conditions.millicelsius,
            conditions.power_save,
            conditions.waiting,
            seconds,
            fraction,
            out,
            frame,
        )
    }
}

/// The voltage of a common in a drive; 2^32 for none.
#[inline]
pub fn common_microvolts(drive: &[u64; DRIVE_WORDS], common: u8) -> u64 {
    unsafe { nt7508_scan_common_microvolts(drive, common) }
}

/// The voltage of a segment in a drive; 2^32 for none.
#[inline]
pub fn segment_microvolts(drive: &[u64; DRIVE_WORDS], segment: u8) -> u64 {
    unsafe { nt7508_scan_segment_microvolts(drive, segment) }
}
