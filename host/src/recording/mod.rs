//! From cleaned bytes to a sealed recording on the disk, and how an unfinished one is closed.

pub mod after;
pub mod closing;
pub mod day;
pub mod files;
pub mod folder;
pub mod front;
pub mod judge;
pub mod listed;
pub mod mend;
pub mod original;
pub mod place;
pub mod put;
pub mod rescue;
pub mod rolling;
pub mod seal;
pub mod through;
pub mod times;
pub mod unfinished;
pub mod writing;
