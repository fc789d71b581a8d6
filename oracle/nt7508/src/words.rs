//! The functions of the proved library over words and bytes, as they are: each
//! answers its status, 0 or the number of a refusal, and writes what it gives
//! into what it is lent. `include/nt7508.h` says for each what it takes, gives
//! and refuses.
//!
//! Declarations and `unsafe` stand here alone. The calls are safe since the
//! library is proved to read and write no more than the arrays that it is lent,
//! and an exclusive reference overlaps no other. A slice crosses as its place
//! and its length; a moment is given in fraction units of 2^-64 s.
pub mod clock;
pub mod controller;
pub mod scan;
pub mod session;
pub mod voltage;

/// A wide number as two words, high first: of a moment its seconds and fraction.
#[inline]
pub fn words(wide: u128) -> [u64; 2] {
    [(wide >> 64) as u64, wide as u64]
}

/// The wide number of two words.
#[inline]
pub fn wide(high: u64, low: u64) -> u128 {
    u128::from(high) << 64 | u128::from(low)
}

/// RAM and icons, of any lengths.
#[derive(Clone, Copy, Debug)]
pub struct Lent<'a> {
    /// 4,096 bytes, if the call is to pass.
    pub ram: &'a [u8],
    /// 256 bytes, if the call is to pass.
    pub icons: &'a [u8],
}

/// RAM and icons, of any lengths, that a call may write.
#[derive(Debug)]
pub struct LentMut<'a> {
    /// 4,096 bytes, if the call is to pass.
    pub ram: &'a mut [u8],
    /// 256 bytes, if the call is to pass.
    pub icons: &'a mut [u8],
}
