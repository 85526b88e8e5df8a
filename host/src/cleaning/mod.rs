//! From recorded bytes to cleaned bytes: both benches over one store, through the proved library.

pub mod clean;
pub mod cleaned;
pub mod day;
pub mod demo;
pub mod first_voice;
pub mod jobs;
pub mod measured;
pub mod mix;
pub mod pauses;
pub mod recorder;
pub mod run;
pub mod split;
