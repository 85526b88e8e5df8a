//! Files that come to stand in a folder all together, or not at all.

use crate::error::{At, Error, Result};
use crate::recording::place::{beside, free, give_place, is_taken, new_file};
use crate::sys::disk::{sync_all, sync_folder};
use crate::sys::lock::try_lock;
use crate::telling::shown::line_of;
use std::ffi::OsString;
use std::fs;
use std::io::{self, ErrorKind, Write};
use std::path::{Path, PathBuf};

/// Why nothing is written there.
fn taken(place: &Path) -> Error {
    Error::undone("it already exists; choose another place, or overwrite it with --force").at(place)
}

/// A file on its way to its place.
struct File {
    place: PathBuf,
    part: PathBuf,
    /// Where what stood there before was set aside.
    aside: Option<PathBuf>,
    put: bool,
}

impl File {
    /// A name that nobody has, for what stands in the place.
    fn old(&self) -> PathBuf {
        free(|number| beside(&self.place, &number.map_or(".old".into(), |n| format!(".old-{n}"))))
    }

    fn put(&mut self, force: bool) -> io::Result<()> {
        if force && is_taken(&self.place) && !self.place.is_dir() {
            let old = self.old();
            give_place(&self.place, &old)?;
            self.aside = Some(old);
        }
        give_place(&self.part, &self.place)?;
        self.put = true;
        Ok(())
    }

    /// As if it had never been written.
    fn undo(&self) {
        let _ = fs::remove_file(if self.put { &self.place } else { &self.part });
        if let Some(old) = &self.aside {
            let _ = give_place(old, &self.place);
        }
    }
}

/// Dropped before its files are kept or left, it leaves the folder as it was.
pub struct Folder {
    path: PathBuf,
    /// What stands in front of each file's name in its place, but not on its way there.
    prefix: String,
    /// The folders that were not there, the innermost first.
    made: Vec<PathBuf>,
    files: Vec<File>,
    /// What lies beside the files until they are kept.
    scratch: Vec<PathBuf>,
    /// What goes when the files are kept, and stays if they are not.
    outdated: Vec<PathBuf>,
    force: bool,
    /// Held for as long as this is here; it goes with the process, however that ends.
    lock: Option<fs::File>,
}

impl Folder {
    /// Opens a folder, and makes it where there is none. With `force` files may take the place of others.
    pub fn new(path: &Path, force: bool) -> Result<Folder> {
        let made: Vec<_> = path.ancestors().take_while(|path| !path.exists()).map(Path::to_owned).collect();
        let folder = Folder {
            path: path.to_owned(),
            prefix: String::new(),
            made,
            files: Vec::new(),
            scratch: Vec::new(),
            outdated: Vec::new(),
            force,
            lock: None,
        };
        fs::create_dir_all(path).at(path)?;
        folder.made.iter().filter_map(|made| made.parent()).for_each(sync_folder);
        Ok(folder)
    }

    /// The same, with this in front of each file's name.
    pub fn prefixed(mut self, prefix: &str) -> Folder {
        self.prefix = prefix.into();
        self
    }

    pub fn path(&self) -> &Path {
        &self.path
    }

    pub fn prefix(&self) -> &str {
        &self.prefix
    }

    /// Refuses the folder while another run writes into it. A run that is dead holds no lock.
    pub fn lock(&mut self) -> Result<()> {
        let folder = fs::File::open(&self.path).at(&self.path)?;
        match try_lock(&folder) {
            Ok(true) => self.lock = Some(folder),
            Ok(false) => return Err(Error::undone("another run is writing into this folder").at(&self.path)),
            Err(why) => {
                crate::warn!("{}", line_of(&self.path, format!("no second run would be noticed here: {why}")));
            }
        }
        Ok(())
    }

    /// Refuses the folder where one of these names is taken.
    pub fn claim(&self, names: impl IntoIterator<Item = impl AsRef<Path>>) -> Result<()> {
        let places = names.into_iter().map(|name| self.place(name));
        match places.into_iter().find(|place| !self.force && is_taken(place)) {
            Some(place) => Err(taken(&place)),
            None => Ok(()),
        }
    }

    /// Where a file comes to stand.
    pub fn place(&self, name: impl AsRef<Path>) -> PathBuf {
        let mut prefixed = OsString::from(&self.prefix);
        prefixed.push(name.as_ref());
        self.path.join(prefixed)
    }

    /// Where it is on its way there, as `NAME.part`.
    pub fn part(&self, name: impl AsRef<Path>) -> PathBuf {
        beside(&self.path.join(name), ".part")
    }

    /// A new file that is written beside its place.
    pub fn create(&mut self, name: impl AsRef<Path>) -> Result<fs::File> {
        let file = File { place: self.place(&name), part: self.part(&name), aside: None, put: false };
        let part = new_file(&file.part).at(&file.part)?;
        self.files.push(file);
        Ok(part)
    }

    /// Writes a file beside its place, and through to the disk.
    pub fn write(&mut self, name: impl AsRef<Path>, bytes: &[u8]) -> Result<()> {
        let mut file = self.create(&name)?;
        file.write_all(bytes).and_then(|()| sync_all(&file)).at(&self.place(name))
    }

    /// A new file that lies beside another's place until the files are kept.
    pub fn scratch(&mut self, name: &str, ending: &str) -> Result<(PathBuf, fs::File)> {
        let path = beside(&self.path.join(name), ending);
        let file = new_file(&path).at(&path)?;
        self.scratch.push(path.clone());
        Ok((path, file))
    }

    /// What a file has that was written beside its place.
    pub fn read_back(&self, name: impl AsRef<Path>) -> Result<Vec<u8>> {
        let part = self.part(name);
        fs::read(&part).at(&part)
    }

    /// A file of this name that was written earlier is removed when the others are put into their places.
    pub fn clear(&mut self, name: &str) {
        let place = self.place(name);
        if self.force && place.is_file() {
            self.outdated.push(place);
        }
    }

    /// Forgets a file that was on its way to this name.
    pub fn forget(&mut self, name: &str) {
        let place = self.place(name);
        self.files.extract_if(.., |file| file.place == place).for_each(|file| file.undo());
    }

    /// Puts all files into their places. Where that fails, some may stand there already.
    pub fn keep(&mut self) -> Result<()> {
        for file in &mut self.files {
            file.put(self.force).map_err(|why| match why.kind() {
                ErrorKind::AlreadyExists => taken(&file.place),
                _ => Error::from(why).at(&file.place),
            })?;
        }
        sync_folder(&self.path);
        let old = self.files.drain(..).filter_map(|file| file.aside).chain(self.outdated.drain(..));
        for path in old.chain(self.scratch.drain(..)) {
            let _ = fs::remove_file(path);
        }
        self.made.clear();
        Ok(())
    }

    /// Leaves the files where they are: in their places, or beside them.
    pub fn leave(&mut self) {
        self.files.clear();
        self.scratch.clear();
        self.made.clear();
    }
}

impl Drop for Folder {
    fn drop(&mut self) {
        // what a fault of this program leaves may be all that there is of a dictation
        if std::thread::panicking() {
            return;
        }
        self.files.iter().rev().for_each(File::undo);
        self.scratch.iter().for_each(|path| _ = fs::remove_file(path));
        self.made.iter().for_each(|path| _ = fs::remove_dir(path));
    }
}
