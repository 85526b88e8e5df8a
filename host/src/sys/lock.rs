//! A lock on a folder (`flock`): it ends with the process, however that ends, so that a dead run holds none.

use std::fs::{File, TryLockError};
use std::io;

/// Whether the lock is ours now. `false` if another run has it; an error if this file system has no locks.
pub fn try_lock(file: &File) -> io::Result<bool> {
    match file.try_lock() {
        Ok(()) => Ok(true),
        Err(TryLockError::WouldBlock) => Ok(false),
        Err(TryLockError::Error(why)) => Err(why),
    }
}
