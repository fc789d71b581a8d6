//! The original's display module, compiled unchanged, with the small stand-ins
//! that it leans on (`error`, the crate `borsh`), and `ask`, which calls it.
//! `ask` is in this crate because much of what it calls is `pub(crate)`.
include!(concat!(env!("OUT_DIR"), "/root.rs"));
pub mod ask;
pub mod error;
pub use error::Error;
pub use time::Time;
