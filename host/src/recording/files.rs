//! What `box clean` writes, as it goes: for each bench the recording with its seals and side sheet, and of both the
//! table, the picture and the page.
//! All that has come out of a bench is in its files before the next block is read, and on the disk a second later.

use crate::cleaning::cleaned::Summary;
use crate::cleaning::recorder::{Frame, Side, NOTE};
use crate::cleaning::run::Sink;
use crate::error::{At, Error, Result};
use crate::page;
use crate::page::about::About;
use crate::page::{picture, table};
use crate::recording::folder::Folder;
use crate::recording::front::MOST;
use crate::recording::rolling::Rolling;
use crate::recording::through::Through;
use crate::recording::unfinished;
use crate::sys::disk::{sync_all, sync_folder};
use std::fs::File;
use std::io::{self, BufWriter, Write};
use std::path::Path;

pub const TABLE: &str = "frames.csv";
pub const PICTURE: &str = "benches.svg";
pub const PAGE: &str = "index.html";

/// The name of a bench's recording.
pub fn recording(side: Side) -> String {
    format!("{}.wav", side.name())
}

/// The name of the recording as it was, where that is written too.
pub fn before(side: Side) -> String {
    format!("{}-before.wav", side.name())
}

/// All that may be written of a dictation, by name.
pub fn names() -> Vec<String> {
    Side::BOTH.map(recording).into_iter().chain([TABLE, PICTURE, PAGE].map(String::from)).collect()
}

struct Bench {
    recordings: Rolling,
    /// The records of frames whose audio comes next.
    waiting: Vec<[u8; NOTE]>,
    summary: Summary,
}

impl Bench {
    /// When the recording began is not known of a file.
    fn new(side: Side, folder: &mut Folder) -> Result<Bench> {
        let recordings = Rolling::new(folder, side.name(), side, 0, MOST)?;
        Ok(Bench { recordings, waiting: vec![], summary: Summary::of(side) })
    }

    fn is_empty(&self) -> bool {
        self.recordings.is_empty()
    }

    /// Closes the recording, if there is any.
    fn finish(self) -> Result<Summary> {
        if !self.is_empty() {
            self.recordings.finish()?;
        }
        Ok(self.summary)
    }
}

/// The recordings and the records of both benches are written through to the disk as they grow.
fn written_through(benches: &[Bench; 2]) -> io::Result<Through> {
    let files = benches.iter().flat_map(|bench| bench.recordings.files());
    Ok(Through::new(files.map(File::try_clone).collect::<io::Result<_>>()?))
}

/// A folder on its way. (It is the last to go, once nothing lies in it any more.)
pub struct Files {
    benches: [Bench; 2],
    /// The table of frames, if it is asked for.
    table: Option<BufWriter<File>>,
    through: Through,
    folder: Folder,
    once: bool,
}

/// Where files are written, and which.
pub struct Place<'a> {
    pub out: &'a Path,
    /// The beginning of all names.
    pub prefix: &'a str,
    /// The names of what will be added.
    pub more: &'a [String],
    /// Whether files that exist may be overwritten.
    pub force: bool,
    /// Whether the recordings can't be read again. If their files can't be finished, they stay beside their places.
    pub once: bool,
    /// Whether the table of frames is written.
    pub csv: bool,
}

impl Files {
    /// No other run may be writing into the folder, and none may have left unfinished files there.
    pub fn new(place: &Place) -> Result<Files> {
        let mut folder = Folder::new(place.out, place.force)?.prefixed(place.prefix);
        folder.lock()?;
        unfinished::refuse(place.out)?;
        folder.claim(names().iter().chain(place.more))?;
        let [left, right] = Side::BOTH;
        let benches = [Bench::new(left, &mut folder)?, Bench::new(right, &mut folder)?];
        let through = written_through(&benches).at(place.out)?;
        let mut table = place.csv.then(|| folder.create(TABLE).map(BufWriter::new)).transpose()?;
        table.as_mut().map_or(Ok(()), table::head).at(&folder.place(TABLE))?;
        sync_folder(place.out);
        Ok(Files { benches, table, through, folder, once: place.once })
    }

    /// The same, with recordings of at most so many bytes of audio.
    pub fn at_most(mut self, bytes: u32) -> Files {
        self.benches.iter_mut().for_each(|bench| bench.recordings.most = bytes);
        self
    }

    /// Whether there is nothing to keep.
    pub fn is_empty(&self) -> bool {
        self.benches.iter().all(Bench::is_empty)
    }

    /// What the page says of a recording.
    pub fn about(&mut self, side: Side, about: About) {
        self.benches[side as usize].summary.about = about;
    }

    /// Why a recording is not whole, for its page.
    pub fn fault(&mut self, side: Side, why: &str) {
        self.benches[side as usize].summary.about.fault.get_or_insert(why.into());
    }

    /// Another file, beside those that are always there.
    pub fn add(&mut self, name: &str, bytes: &[u8]) -> Result<()> {
        self.folder.write(name, bytes)
    }

    /// Closes all files and puts them into their places; of a bench without a sample there is no recording. `before`
    /// are the names of the recordings as they were, where these were added.
    pub fn keep(self, before: Option<[&str; 2]>) -> Result<[Summary; 2]> {
        let Files { benches, table, through, mut folder, once } = self;
        drop(through);
        let kept = close(benches, table, &mut folder, before).and_then(|summaries| folder.keep().map(|()| summaries));
        kept.map_err(|why| given_up(folder, why, once))
    }

    /// Tells why the files can't be finished, and what became of them.
    pub fn give_up(self, why: Error) -> Error {
        let once = self.once && !self.is_empty();
        given_up(self.folder, why, once)
    }
}

fn given_up(mut folder: Folder, why: Error, once: bool) -> Error {
    if !once {
        return why;
    }
    folder.leave();
    let command = unfinished::mend_command(folder.path());
    why.reworded(|why| format!("{why}; what was cleaned is left unfinished, and {command} closes it"))
}

fn close(
    benches: [Bench; 2],
    mut table: Option<BufWriter<File>>,
    folder: &mut Folder,
    before: Option<[&str; 2]>,
) -> Result<[Summary; 2]> {
    let has_table = table.is_some();
    if let Some(table) = &mut table {
        table.flush().and_then(|()| sync_all(table.get_ref())).at(&folder.place(TABLE))?;
    } else {
        folder.clear(TABLE);
    }
    for bench in benches.iter().filter(|bench| bench.is_empty()) {
        folder.forget(&recording(bench.summary.side));
    }
    let [left, right] = benches;
    let summaries = [left.finish()?, right.finish()?];
    folder.write(PICTURE, picture::svg(&summaries).as_bytes())?;
    folder.write(PAGE, page::html(&summaries, before, folder.prefix(), has_table).as_bytes())?;
    Ok(summaries)
}

impl Sink for Files {
    fn before(&mut self, side: Side, samples: &[f32]) -> Result<()> {
        self.benches[side as usize].summary.before(samples);
        Ok(())
    }

    fn after(&mut self, side: Side, bytes: &[u8]) -> Result<()> {
        let bench = &mut self.benches[side as usize];
        bench.summary.after(bytes);
        let records = std::mem::take(&mut bench.waiting);
        if bench.recordings.write(&mut self.folder, &records, bytes)? {
            let prefix = self.folder.prefix().to_owned();
            let named = |name: &String| format!("{prefix}{name}");
            bench.summary.about.more = bench.recordings.more.iter().map(named).collect();
            self.through = written_through(&self.benches).at(self.folder.path())?;
        }
        Ok(())
    }

    fn frames(&mut self, frames: &[Vec<Frame>; 2]) -> Result<()> {
        for (bench, frames) in self.benches.iter_mut().zip(frames) {
            frames.iter().for_each(|frame| bench.summary.frame(frame));
            bench.waiting.extend(frames.iter().map(|frame| frame.record));
        }
        if let Some(table) = &mut self.table {
            table::rows(table, frames).and_then(|()| table.flush()).at(&self.folder.place(TABLE))?;
        }
        self.through.look().at(self.folder.path())
    }
}
