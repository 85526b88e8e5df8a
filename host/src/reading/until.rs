//! A file or a stream that is read until a signal asks for the end.

use crate::sys::signals::asked;
use crate::sys::wait::is_ready;
use std::fs::File;
use std::io::{self, ErrorKind, Read};

/// So long a stream is waited for, in milliseconds, before the signals are looked at again.
const PATIENCE: i32 = 50;
/// So much may lie in a pipe when the signal comes: the most that Linux lets one hold. It has been recorded, and is
/// taken.
const PIPE: usize = 1 << 20;

/// A file or a stream, which ends where a signal asks for it: at once, or behind so many bytes at most of what waits
/// there to be read.
pub struct Until {
    from: File,
    waiting: usize,
}

impl Until {
    pub fn file(from: File) -> Until {
        Until { from, waiting: 0 }
    }

    pub fn stream(from: File) -> Until {
        Until { from, waiting: PIPE }
    }

    /// Whether to read now; `None` at the end.
    fn is_time(&self) -> Option<bool> {
        if asked() {
            (self.waiting > 0 && is_ready(&self.from, 0)).then_some(true)
        } else {
            Some(is_ready(&self.from, PATIENCE))
        }
    }
}

impl Read for Until {
    fn read(&mut self, to: &mut [u8]) -> io::Result<usize> {
        while let Some(is_time) = self.is_time() {
            if !is_time {
                continue;
            }
            match self.from.read(to) {
                // a pipe whose writer has nothing yet is asked again
                Err(why) if matches!(why.kind(), ErrorKind::Interrupted | ErrorKind::WouldBlock) => {}
                Ok(read) if asked() => {
                    self.waiting = self.waiting.saturating_sub(read);
                    return Ok(read);
                }
                read => return read,
            }
        }
        Ok(0)
    }
}
