//! Writing through to the disk: what is in the memory of the system is lost when the power fails.

use std::fs::File;
use std::io;
use std::path::Path;

/// The contents of a file (`fdatasync`). Its times may be written later.
pub fn sync_data(file: &File) -> io::Result<()> {
    file.sync_data()
}

/// The contents of a file and all that is said of it (`fsync`).
pub fn sync_all(file: &File) -> io::Result<()> {
    file.sync_all()
}

/// The names in a folder, if the file system can do that: without it a new file may have no name after a power cut.
/// (Some can't, and nothing is lost by that but the name's safety. So a fault is no error.)
pub fn sync_folder(folder: &Path) {
    let folder = if folder == Path::new("") { Path::new(".") } else { folder };
    let _ = File::open(folder).and_then(|folder| folder.sync_all());
}
