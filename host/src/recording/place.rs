//! Places for files: whether one is taken, and how a file comes to stand in one that is not.

use crate::sys::rename::rename_new;
use std::fs;
use std::io;
use std::path::{Path, PathBuf};

/// A name beside a file's own.
pub fn beside(place: &Path, ending: &str) -> PathBuf {
    let mut name = place.as_os_str().to_owned();
    name.push(ending);
    name.into()
}

/// Whether anything stands there, a link that leads nowhere too.
pub fn is_taken(place: &Path) -> bool {
    fs::symlink_metadata(place).is_ok()
}

/// The first of these names where nothing stands: the first one, then with 2, 3 and so on.
pub fn free(name: impl Fn(Option<u32>) -> PathBuf) -> PathBuf {
    let numbers = std::iter::once(None).chain((2..).map(Some));
    numbers.map(name).find(|place| !is_taken(place)).expect("there is always another name")
}

/// A new file. No link is followed, and nothing that stands there is opened.
pub fn new_file(place: &Path) -> io::Result<fs::File> {
    fs::File::options().read(true).write(true).create_new(true).open(place)
}

/// Gives a file its place, where nothing may stand. Linux makes it one step, so that nothing that comes there
/// meanwhile is lost.
pub fn give_place(from: &Path, place: &Path) -> io::Result<()> {
    match rename_new(from, place) {
        // this file system can't
        Err(why) if why.kind() == io::ErrorKind::InvalidInput || why.kind() == io::ErrorKind::Unsupported => {
            if is_taken(place) {
                return Err(io::ErrorKind::AlreadyExists.into());
            }
            fs::rename(from, place)
        }
        done => done,
    }
}
