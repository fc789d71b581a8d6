//! A proved model of the Novatek NT7508 display controller, for Rust.
//!
//! [`Nt7508`] is the controller with its memory, [`run`] the session program;
//! both go through the proved library `ffi` (`oracle/library`), whose functions
//! over words are in [`words`]. Types and methods have the names of the original
//! Rust (lumirth/hachistep). No call panics, allocates or keeps a reference.
//!
//! ```
//! use nt7508::{Nt7508, Time};
//!
//! let mut chip = Nt7508::new();
//! chip.select(true)?;
//! for command in [0x93, 0xa5, 0x2f, 0xab, 0xaf] {
//!     chip.shift_in(command, 8, Time::ZERO)?;
//! }
//! let drive = chip.drive(Time::from_micros(1000))?;
//! assert_eq!(drive.common, Some(8));
//! assert_eq!(drive.voltages.levels[0], Some(4_142_731));
//! # Ok::<(), nt7508::Refusal>(())
//! ```
#![warn(missing_docs)]

mod controller;
mod parts;
mod session;
pub mod words;

pub use controller::Nt7508;
pub use parts::{Event, LcdDrive, LcdVoltages, Refusal, Time};
pub use session::{run, Ended};

/// The words of a controller's state.
pub const STATE_WORDS: usize = 75;
/// The bytes of RAM.
pub const RAM_BYTES: usize = 4096;
/// The bytes of the icons.
pub const ICON_BYTES: usize = 256;
/// The columns that are seen.
pub const LCD_WIDTH: usize = 96;
/// The rows that are seen.
pub const LCD_HEIGHT: usize = 64;
/// The bytes of an image.
pub const IMAGE_BYTES: usize = LCD_WIDTH * LCD_HEIGHT;
/// The longest text of a session.
pub const TEXT_BYTES: usize = 65_536;
/// Room for the listing of every text.
pub const LISTING_BYTES: usize = 589_824;
/// The words of an event.
pub const EVENT_WORDS: usize = 8;
/// The words of a drive.
pub const DRIVE_WORDS: usize = 12;
/// The words of voltages.
pub const VOLTAGE_WORDS: usize = 7;
/// The words of the end of the wait.
pub const DEADLINE_WORDS: usize = 3;
/// The words of a pair that the setting finder found.
pub const FOUND_WORDS: usize = 3;
/// The words that a session ends with.
pub const ENDED_WORDS: usize = 2;
/// The words of a clock.
pub const CLOCK_WORDS: usize = 8;
/// The settings of the voltages.
pub const ANALOG_BYTES: usize = 8;
/// The settings of the scan.
pub const DISPLAY_BYTES: usize = 20;
/// The words of a scan.
pub const SCAN_WORDS: usize = 13;
/// The bytes of a scan.
pub const SCAN_BYTES: usize = 14;
