//! The controller. Its state is a block of words that the caller keeps and lends,
//! of any length here: another than `STATE_WORDS` is refused with 20.
use super::{words, Lent, LentMut};
use crate::{DEADLINE_WORDS, DRIVE_WORDS, EVENT_WORDS, FOUND_WORDS, VOLTAGE_WORDS};

extern "C" {
    fn nt7508_controller_new(state: *mut u64, state_words: usize) -> u64;
    fn nt7508_controller_rising(
        state: *mut u64,
        state_words: usize,
        bit: bool,
        seconds: u64,
        fraction: u64,
        ram: *mut u8,
        ram_bytes: usize,
        icons: *mut u8,
        icon_bytes: usize,
        event: &mut [u64; EVENT_WORDS],
    ) -> u64;
    fn nt7508_controller_shift_in(
        state: *mut u64,
        state_words: usize,
        bits: u8,
        count: u8,
        seconds: u64,
        fraction: u64,
        ram: *mut u8,
        ram_bytes: usize,
        icons: *mut u8,
        icon_bytes: usize,
        event: &mut [u64; EVENT_WORDS],
    ) -> u64;
    fn nt7508_controller_select(state: *mut u64, state_words: usize, on: bool) -> u64;
    fn nt7508_controller_command_data(state: *mut u64, state_words: usize, on: bool) -> u64;
    fn nt7508_controller_set_supply(
        state: *mut u64,
        state_words: usize,
        millivolts: u16,
        seconds: u64,
        fraction: u64,
    ) -> u64;
    fn nt7508_controller_set_temperature(
        state: *mut u64,
        state_words: usize,
        millicelsius: i32,
    ) -> u64;
    fn nt7508_controller_lose_volatile(
        state: *mut u64,
        state_words: usize,
        ram: *mut u8,
        ram_bytes: usize,
        icons: *mut u8,
        icon_bytes: usize,
    ) -> u64;
    fn nt7508_controller_at_deadline(
        state: *mut u64,
        state_words: usize,
        seconds: u64,
        fraction: u64,
    ) -> u64;
    fn nt7508_controller_update(
        state: *mut u64,
        state_words: usize,
        seconds: u64,
        fraction: u64,
        pieces: &mut u8,
    ) -> u64;
    fn nt7508_controller_restore(
        state: *mut u64,
        state_words: usize,
        seconds: u64,
        fraction: u64,
        ram: *const u8,
        ram_bytes: usize,
        icons: *const u8,
        icon_bytes: usize,
    ) -> u64;
    fn nt7508_controller_drive(
        state: *const u64,
        state_words: usize,
        seconds: u64,
        fraction: u64,
        ram: *const u8,
        ram_bytes: usize,
        icons: *const u8,
        icon_bytes: usize,
        out: &mut [u64; DRIVE_WORDS],
        frame: &mut u16,
    ) -> u64;
    fn nt7508_controller_render(
        state: *const u64,
        state_words: usize,
        ram: *const u8,
        ram_bytes: usize,
        icons: *const u8,
        icon_bytes: usize,
        image: *mut u8,
        image_bytes: usize,
    ) -> u64;
    fn nt7508_controller_voltages(
        state: *const u64,
        state_words: usize,
        out: &mut [u64; VOLTAGE_WORDS],
    ) -> u64;
    fn nt7508_controller_serial_effect_edges(
        state: *const u64,
        state_words: usize,
        high: bool,
        out: &mut u8,
    ) -> u64;
    fn nt7508_controller_deadline(
        state: *const u64,
        state_words: usize,
        out: &mut [u64; DEADLINE_WORDS],
    ) -> u64;
    fn nt7508_controller_find_setting(
        state: *const u64,
        state_words: usize,
        low: u32,
        high: u32,
        out: &mut [u64; FOUND_WORDS],
    ) -> u64;
}

/// The state at power-on.
#[inline]
pub fn new(state: &mut [u64]) -> u64 {
    unsafe { nt7508_controller_new(state.as_mut_ptr(), state.len()) }
}

/// One rising edge of the serial clock.
#[inline]
pub fn rising(
    state: &mut [u64],
    bit: bool,
    now: u128,
    lent: LentMut,
    event: &mut [u64; EVENT_WORDS],
) -> u64 {
    let [seconds, fraction] = words(now);
    unsafe {
        nt7508_controller_rising(
            state.as_mut_ptr(),
            state.len(),
            bit,
            seconds,
            fraction,
            lent.ram.as_mut_ptr(),
            lent.ram.len(),
            lent.icons.as_mut_ptr(),
            lent.icons.len(),
            event,
        )
    }
}

/// A group of up to eight rising edges, the oldest bit the highest.
#[inline]
pub fn shift_in(
    state: &mut [u64],
    (bits, count): (u8, u8),
    now: u128,
    lent: LentMut,
    event: &mut [u64; EVENT_WORDS],
) -> u64 {
    let [seconds, fraction] = words(now);
    unsafe {
        nt7508_controller_shift_in(
            state.as_mut_ptr(),
            state.len(),
            bits,
            count,
            seconds,
            fraction,
            lent.ram.as_mut_ptr(),
            lent.ram.len(),
            lent.icons.as_mut_ptr(),
            lent.icons.len(),
            event,
        )
    }
}

/// Chip select.
#[inline]
pub fn select(state: &mut [u64], on: bool) -> u64 {
    unsafe { nt7508_controller_select(state.as_mut_ptr(), state.len(), on) }
}

/// The data line: data, or commands.
#[inline]
pub fn command_data(state: &mut [u64], on: bool) -> u64 {
    unsafe { nt7508_controller_command_data(state.as_mut_ptr(), state.len(), on) }
}

/// The supply.
#[inline]
pub fn set_supply(state: &mut [u64], millivolts: u16, now: u128) -> u64 {
    let [seconds, fraction] = words(now);
    unsafe {
        nt7508_controller_set_supply(
            state.as_mut_ptr(),
            state.len(),
            millivolts,
            seconds,
            fraction,
        )
    }
}

/// The temperature.
#[inline]
pub fn set_temperature(state: &mut [u64], millicelsius: i32) -> u64 {
    unsafe { nt7508_controller_set_temperature(state.as_mut_ptr(), state.len(), millicelsius) }
}

/// A loss of memory.
#[inline]
pub fn lose_volatile(state: &mut [u64], lent: LentMut) -> u64 {
    unsafe {
        nt7508_controller_lose_volatile(
            state.as_mut_ptr(),
            state.len(),
            lent.ram.as_mut_ptr(),
            lent.ram.len(),
            lent.icons.as_mut_ptr(),
            lent.icons.len(),
        )
    }
}

/// The deadline call.
#[inline]
pub fn at_deadline(state: &mut [u64], now: u128) -> u64 {
    let [seconds, fraction] = words(now);
    unsafe { nt7508_controller_at_deadline(state.as_mut_ptr(), state.len(), seconds, fraction) }
}

/// Counts the scan to a moment, and how many pieces that took.
#[inline]
pub fn update(state: &mut [u64], now: u128, pieces: &mut u8) -> u64 {
    let [seconds, fraction] = words(now);
    unsafe { nt7508_controller_update(state.as_mut_ptr(), state.len(), seconds, fraction, pieces) }
}

/// Whether a state that was kept elsewhere may go on.
#[inline]
pub fn restore(state: &mut [u64], now: u128, lent: Lent) -> u64 {
    let [seconds, fraction] = words(now);
    unsafe {
        nt7508_controller_restore(
            state.as_mut_ptr(),
            state.len(),
            seconds,
            fraction,
            lent.ram.as_ptr(),
            lent.ram.len(),
            lent.icons.as_ptr(),
            lent.icons.len(),
        )
    }
}

/// The drive, and the frame length of the scan shown.
#[inline]
pub fn drive(
    state: &[u64],
    now: u128,
    lent: Lent,
    out: &mut [u64; DRIVE_WORDS],
    frame: &mut u16,
) -> u64 {
    let [seconds, fraction] = words(now);
    unsafe {
        nt7508_controller_drive(
            state.as_ptr(),
            state.len(),
            seconds,
            fraction,
            lent.ram.as_ptr(),
            lent.ram.len(),
            lent.icons.as_ptr(),
            lent.icons.len(),
            out,
            frame,
        )
    }
}

/// The gray image.
#[inline]
pub fn render(state: &[u64], lent: Lent, image: &mut [u8]) -> u64 {
    unsafe {
        nt7508_controller_render(
            state.as_ptr(),
            state.len(),
            lent.ram.as_ptr(),
            lent.ram.len(),
            lent.icons.as_ptr(),
            lent.icons.len(),
            image.as_mut_ptr(),
            image.len(),
        )
    }
}

/// Target, pump and V0 to V4; 2^32 for a level that is absent.
#[inline]
pub fn voltages(state: &[u64], out: &mut [u64; VOLTAGE_WORDS]) -> u64 {
    unsafe { nt7508_controller_voltages(state.as_ptr(), state.len(), out) }
}

/// Edges of the serial clock until the byte completes.
#[inline]
pub fn serial_effect_edges(state: &[u64], high: bool, out: &mut u8) -> u64 {
    unsafe { nt7508_controller_serial_effect_edges(state.as_ptr(), state.len(), high, out) }
}

/// Whether there is a wait, and its end.
#[inline]
pub fn deadline(state: &[u64], out: &mut [u64; DEADLINE_WORDS]) -> u64 {
    unsafe { nt7508_controller_deadline(state.as_ptr(), state.len(), out) }
}

/// Whether a pair fits the band, and one that does: regulator and contrast.
#[inline]
pub fn find_setting(state: &[u64], band: (u32, u32), out: &mut [u64; FOUND_WORDS]) -> u64 {
    unsafe { nt7508_controller_find_setting(state.as_ptr(), state.len(), band.0, band.1, out) }
}
