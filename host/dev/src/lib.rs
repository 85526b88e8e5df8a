//! What serves developers: how fast the box is, and how near to the Rust text. The transforms, the finder and the
//! logarithms in here are what the library is held against; no recording is cleaned with them.

pub mod bench;
pub mod calls;
pub mod commands;
pub mod lags;
pub mod logs;
pub mod reference;
pub mod text;
pub mod transform;
