//! `box mend DIR`: all that a run left unfinished in a folder is closed. It can be ended at any moment, and begun
//! again: what it has to know stands in the recording and in its records, until the recording has its place.

use crate::error::{At, Error, Result};
use crate::recording::day::{is_page_ours, put_page};
use crate::recording::files::TABLE;
use crate::recording::folder::Folder;
use crate::recording::front::{Front, SEAL};
use crate::recording::judge::{judged, Told};
use crate::recording::listed::{days, note_dictation, Voice, BEFORE};
use crate::recording::original;
use crate::recording::place::{beside, free, give_place, is_taken};
use crate::recording::times::is_day;
use crate::recording::unfinished::{left_over, of_others, open_ours, recordings, Kept, Unfinished, PART, SHEET};
use crate::sys::disk::{sync_all, sync_folder};
use crate::telling::shown::line_of;
use std::fs::{self, File};
use std::io::{self, ErrorKind, Read, Seek, SeekFrom};
use std::path::{Path, PathBuf};

/// Gives a file its place, or where that is taken the next free one, as `left-2.wav`.
fn put_free(part: &Path, place: &Path) -> Result<PathBuf> {
    let stem = place.file_stem().unwrap_or_default().to_string_lossy();
    let ending = place.extension().unwrap_or_default().to_string_lossy();
    let numbered = |number: u32| place.with_file_name(format!("{stem}-{number}.{ending}"));
    let place = free(|number| number.map_or(place.to_owned(), numbered));
    give_place(part, &place).at(&place)?;
    Ok(place)
}

fn remove(path: &Path) -> Result<()> {
    match fs::remove_file(path) {
        Err(why) if why.kind() != ErrorKind::NotFound => Err(Error::from(why).at(path)),
        _ => Ok(()),
    }
}

/// A recording that was closed, and where it is.
pub struct Closed {
    pub place: PathBuf,
    /// What the judge told of it.
    pub told: Told,
    pub kept: Kept,
}

/// What a run left of a recording.
enum Left {
    Recording(Box<Unfinished>),
    /// Nothing was recorded yet.
    Empty,
    /// Its records, although the recording has its place already: the run ended just before it would have removed them.
    Records,
    Nothing,
}

/// What a run left of the recording that was to get this place. Nothing is changed.
fn left(place: &Path) -> Result<Left> {
    Ok(match (is_taken(&beside(place, PART)), is_taken(&beside(place, SHEET))) {
        (true, _) => Unfinished::find(place)?.map_or(Left::Empty, |found| Left::Recording(Box::new(found))),
        (false, true) => Left::Records,
        (false, false) => Left::Nothing,
    })
}

/// Closes a recording and puts it in its place.
fn close_and_place(place: &Path, mut unfinished: Unfinished) -> Result<Closed> {
    let (part, sheet) = (beside(place, PART), beside(place, SHEET));
    let kept = unfinished.kept().at(&part)?;
    let told = unfinished.close(&part)?;
    let place = put_free(&part, place)?;
    place.parent().into_iter().for_each(sync_folder);
    remove(&sheet)?;
    Ok(Closed { place, told, kept })
}

/// Whether these records are those of a recording that has its place.
fn is_placed(place: &Path, sheet: &Path) -> Result<bool> {
    let mut seal = [0; SEAL];
    open_ours(sheet)?.read_exact(&mut seal).at(sheet)?;
    let told = File::open(place).and_then(|mut file| judged(&mut file));
    Ok(told.is_ok_and(|told| told.is_ok_and(|told| Front::read(&seal) == Ok(told.front))))
}

/// What becomes of what a run left.
fn mend_recording(place: &Path, left: Left) -> Result<Option<Closed>> {
    let (part, sheet) = (beside(place, PART), beside(place, SHEET));
    match left {
        Left::Recording(unfinished) => close_and_place(place, *unfinished).map(Some),
        Left::Empty => remove(&part).and_then(|()| remove(&sheet)).map(|()| None),
        Left::Records if is_placed(place, &sheet)? => remove(&sheet).map(|()| None),
        Left::Records => Err(Error::undone("there is no recording beside it").at(&sheet)),
        Left::Nothing => Ok(None),
    }
}

/// Cuts a torn row off the table. Whether any row is left but the names of its columns.
fn cut_table(part: &Path) -> io::Result<bool> {
    let mut file = File::options().read(true).write(true).open(part)?;
    let size = file.metadata()?.len();
    let mut end = vec![0; size.min(1_000) as usize];
    file.seek(SeekFrom::Start(size - end.len() as u64))?;
    file.read_exact(&mut end)?;
    let torn = end.iter().rev().take_while(|byte| **byte != b'\n').count();
    file.set_len(size - torn as u64)?;
    sync_all(&file)?;
    Ok(end.iter().filter(|byte| **byte == b'\n').count() > 1)
}

/// What else a run left: the table, and what it had finished, get their places. A table without a row is none.
fn mend_other(part: &Path) -> Result<()> {
    open_ours(part)?;
    let place = part.with_extension("");
    if part.parent().is_some_and(|folder| folder.ends_with(BEFORE)) {
        original::mend_original(part)?;
    }
    let is_table = place.file_name() == Some(TABLE.as_ref());
    if is_table && !cut_table(part).at(part)? {
        return remove(part);
    }
    put_free(part, &place).map(|_| ())
}

/// What a folder's recordings have become.
#[derive(Default)]
pub struct Mended {
    /// Whether a run had left anything.
    pub was_left: bool,
    pub closed: Vec<Closed>,
    /// What could not be closed, and why.
    pub bad: Vec<Error>,
}

impl Mended {
    /// Tells what was kept, and gives what could not be.
    pub fn tell(self, path: &Path) -> Result<()> {
        for closed in &self.closed {
            crate::say!("{}\n{}", line_of(&closed.place, closed.told), closed.kept);
        }
        if !self.bad.is_empty() {
            return Error::several(self.bad);
        }
        match (self.was_left, &self.closed[..]) {
            (false, _) => crate::say!("{}", line_of(path, "there is no unfinished recording")),
            (true, []) => crate::say!("{}", line_of(path, "nothing was recorded yet")),
            _ => {}
        }
        Ok(())
    }
}

/// Whether an error says that files of different sides are together: what is in the folder was mixed up.
fn is_mixed(error: &Error) -> bool {
    matches!(error, Error::Wrong(_))
}

/// Closes all that a run left unfinished in a folder. Where files disagree about a side, nothing is closed.
pub fn mend_folder(path: &Path) -> Result<Mended> {
    let mut folder = Folder::new(path, false)?;
    folder.lock()?;
    let mut mended = Mended { was_left: left_over(path).is_some(), ..Mended::default() };
    let found: Vec<_> = recordings(path).into_iter().map(|place| (left(&place), place)).collect();
    if found.iter().any(|(left, _)| left.as_ref().is_err_and(is_mixed)) {
        mended.bad = found.into_iter().filter_map(|(left, _)| left.err()).collect();
        return Ok(mended);
    }
    for (left, place) in found {
        match left.and_then(|left| mend_recording(&place, left)) {
            Ok(closed) => mended.closed.extend(closed),
            Err(why) => mended.bad.push(why),
        }
    }
    let others = of_others(path).filter(|part| is_taken(part));
    mended.bad.extend(others.filter_map(|part| mend_other(&part).err()));
    mended.bad.extend(list_dictations(path, &mended.closed).err());
    Ok(mended)
}

/// Lists what was closed in the folders of the days, and writes the page anew. Where the voice is nobody has looked.
fn list_dictations(path: &Path, closed: &[Closed]) -> Result<()> {
    for Closed { place, told, kept } in closed {
        let (Some(day), Some(file)) = (place.parent(), place.file_name()) else { continue };
        if day.parent() == Some(path) && day.file_name().is_some_and(|day| is_day(&day.to_string_lossy())) {
            let file = file.to_string_lossy();
            note_dictation(day, &file, told.front, told.frames, told.heard, kept.seconds, Voice::Unknown)?;
        }
    }
    if days(path).is_empty() || !is_page_ours(path) {
        return Ok(());
    }
    put_page(path)
}
