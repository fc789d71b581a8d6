//! A stand-in for the original's error.rs, which is not among its files: the
//! cases that the display module makes.
use crate::time::TimeError;

#[derive(Clone, Copy, Debug, PartialEq, Eq)]
pub enum Error {
    Internal(&'static str),
    Snapshot(&'static str),
    Time(TimeError),
}

impl From<TimeError> for Error {
    fn from(error: TimeError) -> Self {
        Error::Time(error)
    }
}
