//! A new name for a file (`renameat2` with `RENAME_NOREPLACE`): one step, which fails if the name is taken. `rename`
//! would write over what is there.

use std::io;
use std::path::Path;

#[cfg(target_os = "linux")]
/// Renames a file, if nothing has the new name. `InvalidInput` or `Unsupported`: this file system can't do it.
pub fn rename_new(from: &Path, to: &Path) -> io::Result<()> {
    use std::ffi::{c_char, c_int, c_uint, CString};
    use std::os::unix::ffi::OsStrExt;
    /// Names are those of the current folder, where they don't begin with `/`.
    const HERE: c_int = -100;
    /// `RENAME_NOREPLACE`.
    const NEW: c_uint = 1;
    extern "C" {
        fn renameat2(from_in: c_int, from: *const c_char, to_in: c_int, to: *const c_char, flags: c_uint) -> c_int;
    }
    let [from, to] = [from, to].map(|path| CString::new(path.as_os_str().as_bytes()));
    let (from, to) = (from?, to?);
    // SAFETY: both names end in a 0 and live until the call is over
    match unsafe { renameat2(HERE, from.as_ptr(), HERE, to.as_ptr(), NEW) } {
        0 => Ok(()),
        _ => Err(io::Error::last_os_error()),
    }
}

#[cfg(not(target_os = "linux"))]
pub fn rename_new(_: &Path, _: &Path) -> io::Result<()> {
    Err(io::ErrorKind::Unsupported.into())
}
