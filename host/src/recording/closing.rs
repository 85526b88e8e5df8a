//! Dictations are closed beside the work, one after the other: the stream does not wait for the judge to read what was
//! written, nor for the disk.

use crate::error::{Error, Result};
use crate::recording::day::{Dictation, Tell};
use std::path::PathBuf;
use std::sync::mpsc::{sync_channel, SyncSender};
use std::thread::{spawn, JoinHandle};

/// So many dictations may wait for it. Then the stream waits too: no more is kept in memory, whatever comes.
const WAITING: usize = 8;

/// Dropped, it closes what it was given and ends.
pub struct Closer {
    to: Option<SyncSender<Dictation>>,
    /// How many were closed.
    work: Option<JoinHandle<Result<u64>>>,
}

impl Closer {
    /// For the dictations in this folder, each of which is told of.
    pub fn new(out: PathBuf, tell: Tell) -> Closer {
        let (to, from) = sync_channel::<Dictation>(WAITING);
        let work = spawn(move || {
            // after a fault the files of those that wait stay as they are
            from.into_iter().try_fold(0, |closed, dictation| dictation.close(&out, &tell).map(|()| closed + 1))
        });
        Closer { to: Some(to), work: Some(work) }
    }

    /// Hands a dictation over. A fault of those before it is told.
    pub fn close(&mut self, dictation: Dictation) -> Result<()> {
        if let Some(to) = &self.to {
            if to.send(dictation).is_err() {
                return self.finish().map(|_| ());
            }
        }
        self.look()
    }

    /// Tells a fault, as soon as there was one.
    pub fn look(&mut self) -> Result<()> {
        match self.work.take_if(|work| work.is_finished()) {
            Some(work) => joined(work).map(|_| ()),
            None => Ok(()),
        }
    }

    /// Waits until all are closed. How many there were.
    pub fn finish(&mut self) -> Result<u64> {
        self.to = None;
        self.work.take().map_or(Ok(0), joined)
    }
}

fn joined(work: JoinHandle<Result<u64>>) -> Result<u64> {
    work.join().unwrap_or_else(|_| Err(Error::undone("a dictation can't be closed")))
}

impl Drop for Closer {
    fn drop(&mut self) {
        let _ = self.finish();
    }
}
