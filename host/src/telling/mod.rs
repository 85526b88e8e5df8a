//! What a person or a program is told: whose recording a file is, what went wrong, and how far the work is.

pub mod answer;
pub mod folder;
pub mod found;
pub mod json;
pub mod moment;
pub mod names;
pub mod progress;
pub mod refusal;
pub mod refused;
pub mod shown;
pub mod side;
