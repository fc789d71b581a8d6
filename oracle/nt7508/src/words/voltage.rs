//! The voltages and the setting finder. Settings are eight bytes: contrast,
//! regulator, power control, booster, bias, temperature slope, contrast trim,
//! OTP control.
use crate::{ANALOG_BYTES, FOUND_WORDS, VOLTAGE_WORDS};

extern "C" {
    fn nt7508_settings_valid(settings: &[u8; ANALOG_BYTES]) -> bool;
    fn nt7508_voltages(
        settings: &[u8; ANALOG_BYTES],
        millivolts: u16,
        temperature: i32,
        power_save: bool,
        waiting: bool,
        out: &mut [u64; VOLTAGE_WORDS],
    ) -> u64;
    fn nt7508_find_setting(
        low: u32,
        high: u32,
        settings: &[u8; ANALOG_BYTES],
        temperature: i32,
        out: &mut [u64; FOUND_WORDS],
    ) -> u64;
}

/// Whether each setting is in its range.
#[inline]
pub fn valid(settings: &[u8; ANALOG_BYTES]) -> bool {
    unsafe { nt7508_settings_valid(settings) }
}

/// Target, pump and V0 to V4; 2^32 for a level that is absent.
#[inline]
pub fn voltages(
    settings: &[u8; ANALOG_BYTES],
    (millivolts, millicelsius): (u16, i32),
    (power_save, waiting): (bool, bool),
    out: &mut [u64; VOLTAGE_WORDS],
) -> u64 {
    unsafe { nt7508_voltages(settings, millivolts, millicelsius, power_save, waiting, out) }
}

/// Whether some pair has its target in the band, and its regulator and contrast.
#[inline]
pub fn find_setting(
    (low, high): (u32, u32),
    settings: &[u8; ANALOG_BYTES],
    millicelsius: i32,
    out: &mut [u64; FOUND_WORDS],
) -> u64 {
    unsafe { nt7508_find_setting(low, high, settings, millicelsius, out) }
}
