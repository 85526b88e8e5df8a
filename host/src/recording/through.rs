//! Files that are written through to the disk while they grow, beside the work: after a power cut all is there that
//! is older than a second.

use crate::sys::disk::sync_data;
use std::fs::File;
use std::io;
use std::sync::mpsc::{channel, RecvTimeoutError, Sender};
use std::thread::{spawn, JoinHandle};
use std::time::Duration;

const EVERY: Duration = Duration::from_millis(500);

/// Dropped, it writes no more.
pub struct Through {
    end: Option<Sender<()>>,
    work: Option<JoinHandle<io::Result<()>>>,
}

impl Through {
    pub fn new(files: Vec<File>) -> Through {
        Through::each(EVERY, move || files.iter().try_for_each(sync_data))
    }

    /// Does something again and again, until the end or a fault.
    fn each(every: Duration, work: impl Fn() -> io::Result<()> + Send + 'static) -> Through {
        let (end, ended) = channel();
        let work = spawn(move || {
            while ended.recv_timeout(every) == Err(RecvTimeoutError::Timeout) {
                work()?;
            }
            Ok(())
        });
        Through { end: Some(end), work: Some(work) }
    }

    /// Tells a fault, as soon as there was one.
    pub fn look(&mut self) -> io::Result<()> {
        match self.work.take_if(|work| work.is_finished()) {
            Some(work) => work.join().unwrap_or_else(|_| Err(io::Error::other("it can't be written through"))),
            None => Ok(()),
        }
    }
}

impl Drop for Through {
    fn drop(&mut self) {
        self.end.take();
        self.work.take().map(JoinHandle::join);
    }
}

#[cfg(test)]
mod tests {
    use super::*;
    use std::sync::atomic::{AtomicU32, Ordering::SeqCst};
    use std::sync::Arc;
    use std::thread::sleep;

    #[test]
    fn at_least_once_a_second_until_it_is_dropped() {
        assert!(EVERY <= Duration::from_secs(1));
        let (count, every) = (Arc::new(AtomicU32::new(0)), Duration::from_millis(20));
        let counted = count.clone();
        let through = Through::each(every, move || {
            counted.fetch_add(1, SeqCst);
            Ok(())
        });
        sleep(25 * every);
        drop(through);
        let done = count.load(SeqCst);
        sleep(5 * every);
        assert!(done >= 5 && count.load(SeqCst) == done, "{done} times");
    }

    #[test]
    fn a_fault_is_told_once() {
        let mut through = Through::each(Duration::from_millis(1), || Err(io::Error::other("torn")));
        while !through.work.as_ref().is_some_and(JoinHandle::is_finished) {}
        assert_eq!(through.look().unwrap_err().to_string(), "torn");
        assert!(through.look().is_ok());
    }
}
