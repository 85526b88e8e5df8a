//! One file, written beside its place, read back, and put there.

use crate::error::{Error, Result};
use crate::recording::folder::Folder;
use std::path::Path;

/// What stands there is not written over, but where `force` says so.
pub fn put(place: &Path, bytes: &[u8], force: bool) -> Result<()> {
    let name = place.file_name().ok_or_else(|| Error::undone("this is no name of a file").at(place))?;
    let within = place.parent().filter(|path| *path != Path::new("")).unwrap_or(Path::new("."));
    let mut folder = Folder::new(within, force)?;
    folder.claim([name])?;
    folder.write(name, bytes)?;
    if folder.read_back(name)? != bytes {
        return Err(Error::undone("what was written does not read back").at(place));
    }
    folder.keep()
}
