//! Models in their three forms: read, taken apart, and written.

pub mod export;
pub mod import;
pub mod layers;
pub mod pack;
