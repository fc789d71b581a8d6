//! The session program.
use super::LentMut;
use crate::ENDED_WORDS;

extern "C" {
    fn nt7508_session(
        text: *const u8,
        text_bytes: usize,
        state: *mut u64,
        state_words: usize,
        ram: *mut u8,
        ram_bytes: usize,
        icons: *mut u8,
        icon_bytes: usize,
        listing: *mut u8,
        listing_bytes: usize,
        ended: &mut [u64; ENDED_WORDS],
    ) -> u64;
}

/// Runs a text from power-on: how many bytes of the listing were written, and the
/// line of the refusal or 0, stand in `ended`.
#[inline]
pub fn run(
    text: &[u8],
    state: &mut [u64],
    lent: LentMut,
    listing: &mut [u8],
    ended: &mut [u64; ENDED_WORDS],
) -> u64 {
    unsafe {
        nt7508_session(
            text.as_ptr(),
            text.len(),
            state.as_mut_ptr(),
            state.len(),
            lent.ram.as_mut_ptr(),
            lent.ram.len(),
            lent.icons.as_mut_ptr(),
            lent.icons.len(),
            listing.as_mut_ptr(),
            listing.len(),
            ended,
        )
    }
}
