//! The recorder box: it runs both benches over one lent store through the proved library, and does itself what the
//! library leaves to its host: files.

#![deny(unsafe_code)]

/// A line to standard output.
#[macro_export]
macro_rules! say {
    ($($words:tt)*) => { $crate::telling::answer::say(format_args!($($words)*)) };
}

/// A line to standard error.
#[macro_export]
macro_rules! warn {
    ($($words:tt)*) => { $crate::telling::answer::warn(format_args!($($words)*)) };
}

pub mod cleaning;
pub mod cli;
pub mod error;
pub mod models;
pub mod page;
pub mod reading;
pub mod recording;
#[allow(unsafe_code)]
pub mod sys;
pub mod telling;

pub use tuppence::FRAME;

/// Samples of a second.
pub const RATE: u32 = 48_000;
