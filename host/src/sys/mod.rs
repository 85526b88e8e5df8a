//! What is asked of the operating system, each call with its reason. All that is `unsafe` in this program is in here;
//! the compiler refuses it anywhere else (lib.rs).
//!
//! | Call | Where | Why |
//! |---|---|---|
//! | `signal` | `signals` | Ctrl-C, TERM and HUP end what is read, so that what was recorded is closed and not lost |
//! | `poll` | `wait` | a stream is waited for so that a signal can end the wait |
//! | `open` | `wait` | a pipe that nobody writes into yet is opened at once, so that a signal can end the wait |
//! | `ioctl` | `terminal` | the line that moves must not be wider than the terminal |
//! | `isatty` | `terminal` | progress and colour are for a terminal alone |
//! | `renameat2` | `rename` | a file gets its place in one step that writes over nothing |
//! | `fdatasync`, `fsync` | `disk` | what was recorded is on the disk, and not in memory, when the power fails |
//! | `flock` | `lock` | two runs must not write into one folder |
//! | `tzset`, `localtime_r`, `mktime` | `clock` | a dictation is called by the time that the clock on the wall showed |

pub mod clock;
pub mod disk;
pub mod lock;
pub mod rename;
pub mod signals;
pub mod terminal;
pub mod wait;
