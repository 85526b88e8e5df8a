//! Where the bytes of both benches come from, block by block.

use crate::cleaning::recorder::{Side, PIECE};
use crate::error::{At, Error, Result};
use crate::reading::block::Block;
use crate::reading::form;
use crate::reading::hints;
use crate::reading::until::Until;
use crate::reading::wav::{self, Fault, Reader};
use crate::sys::signals;
use crate::sys::wait::open_to_read;
use crate::telling::shown::line_of;
use crate::{FRAME, RATE};
use std::fs::File;
use std::io::{self, Cursor, Read};
use std::os::fd::AsFd;
use std::path::{Path, PathBuf};
use std::rc::Rc;

/// Recordings as they come.
pub trait Source {
    /// The next block of each bench; one without a sample where it is at its end, or was broken.
    fn next(&mut self) -> [Block; 2];
}

/// Samples in memory.
pub struct Memory<'a>(pub [&'a [f32]; 2]);

impl Source for Memory<'_> {
    fn next(&mut self) -> [Block; 2] {
        self.0.each_mut().map(|left| {
            let (block, rest) = left.split_at(left.len().min(PIECE));
            *left = rest;
            Block::of(block)
        })
    }
}

/// Seconds, of which both are told so that they can be told apart.
fn seconds(samples: u64, of: u64) -> [String; 2] {
    let told = |digits: usize| [samples, of].map(|n| format!("{:.digits$}", n as f64 / f64::from(RATE)));
    [1, 3].map(told).into_iter().find(|[a, b]| a != b).unwrap_or_else(|| told(5))
}

/// What standard input is called in answers.
pub const STANDARD_INPUT: &str = "standard input";

/// How recordings are read.
#[derive(Clone, Copy, Debug, Default)]
pub struct How {
    /// Standard input has no header: its samples have 16 bits, little end first.
    pub raw: bool,
    /// A file is read to its end even if its header announces less audio.
    pub to_the_end: bool,
}

/// A recording that is opened, but of which nothing was read yet.
struct Opened {
    name: PathBuf,
    from: Until,
    /// The bytes of a file. Nobody knows those of a pipe.
    size: Option<u64>,
    is_standard_input: bool,
}

impl Opened {
    /// A file or a pipe; `-` is standard input. A pipe is opened once, and not waited for here.
    fn new(path: &Path) -> Result<Opened> {
        if path == Path::new("-") {
            let name = PathBuf::from(STANDARD_INPUT);
            let from = Until::stream(standard_input().at(&name)?);
            return Ok(Opened { name, from, size: None, is_standard_input: true });
        }
        let file = open_to_read(path).at(path)?;
        let about = file.metadata().at(path)?;
        let size = about.is_file().then_some(about.len());
        let from = if size.is_some() { Until::file(file) } else { Until::stream(file) };
        Ok(Opened { name: path.to_owned(), from, size, is_standard_input: false })
    }

    /// Reads on to the audio, which must have this many channels.
    fn read(self, channels: usize, how: How) -> Result<Recording> {
        let Opened { name, from, size, is_standard_input } = self;
        let reader = match size {
            _ if how.raw && is_standard_input => Ok(raw(from, &name, channels)?),
            Some(_) => Reader::new(Box::new(from) as Box<dyn Read>),
            None => Reader::stream(Box::new(from) as Box<dyn Read>),
        };
        if reader.is_err() && size.is_none() && signals::asked() {
            return Err(Error::undone("stopped before any sound came; nothing is written").at(&name));
        }
        let mut recording = Recording::of(&name, reader, channels)?;
        match size {
            Some(bytes) => recording.measure(bytes, how.to_the_end).at(&name)?,
            None if how.to_the_end => recording.reader.to_the_end(),
            None => {}
        }
        Ok(recording)
    }
}

/// Audio that the header of a file does not announce.
#[derive(Clone, Copy, Debug, PartialEq)]
enum Unannounced {
    /// There is none.
    None,
    /// The header announces no audio at all. All of it is read.
    All,
    /// The file holds this many samples of each channel, more than the header announces. Whether they are read.
    More { holds: u64, are_read: bool },
}

/// A WAV file, or a stream.
pub struct Recording {
    name: PathBuf,
    reader: Reader<Box<dyn Read>>,
    /// How many samples each channel has, where that is known.
    length: Option<u64>,
    unannounced: Unannounced,
    /// Where a channel has a sample that is NaN or infinite, the first of them, counted from 0. It gives none from
    /// there on.
    broken: Vec<Option<u64>>,
    /// How many samples lay beyond full scale.
    clipped: u64,
    /// Why it can't be read on.
    fault: Option<io::Error>,
}

impl Recording {
    fn of(name: &Path, reader: Result<Reader<Box<dyn Read>>, Fault>, channels: usize) -> Result<Recording> {
        let reader = reader.map_err(|fault| hints::of_fault(name, fault))?;
        if reader.rate != RATE {
            return Err(hints::of_rate(name, reader.rate));
        }
        if reader.channels != channels {
            return Err(hints::of_channels(name, reader.channels));
        }
        let (broken, unannounced) = (vec![None; channels], Unannounced::None);
        Ok(Recording { name: name.to_owned(), reader, length: None, unannounced, broken, clipped: 0, fault: None })
    }

    /// How long a file of so many bytes is. Its header may announce less audio than the file holds: none if the
    /// recorder had no time to write the size, or less if the size is wrong or did not fit into 32 bits.
    fn measure(&mut self, bytes: u64, to_the_end: bool) -> io::Result<()> {
        let (announced, end) = (self.reader.length(bytes), self.reader.end());
        if bytes > end && !wav::is_chunk(File::open(&self.name)?, end)? {
            let holds = announced + (bytes - end) / self.reader.layout().size() as u64;
            self.unannounced = match announced {
                0 => Unannounced::All,
                _ if holds < announced + FRAME as u64 => Unannounced::None,
                _ => Unannounced::More { holds, are_read: to_the_end },
            };
        }
        if matches!(self.unannounced, Unannounced::All | Unannounced::More { are_read: true, .. }) {
            self.reader.to_the_end();
        }
        self.length = Some(self.reader.length(bytes));
        Ok(())
    }

    /// The next bytes, and from which sample of each channel on they are.
    fn bytes(&mut self) -> (Rc<[u8]>, u64) {
        let at = self.reader.given;
        let bytes = if self.fault.is_some() { Ok(vec![]) } else { self.reader.block(PIECE) };
        let bytes = bytes.unwrap_or_else(|why| {
            self.fault = Some(why);
            vec![]
        });
        (bytes.into(), at)
    }

    /// A channel of these bytes, as far as it is not broken.
    fn channel(&mut self, (bytes, at): &(Rc<[u8]>, u64), channel: usize) -> Block {
        let mut block = Block::new(bytes.clone(), self.reader.layout(), channel as u32);
        let broken = &mut self.broken[channel];
        *broken = broken.or_else(|| Some(at + block.broken()? as u64));
        if let Some(broken) = *broken {
            block.truncate(broken.saturating_sub(*at));
        }
        self.clipped += block.clipped();
        block
    }

    /// The next block of one channel.
    fn mono(&mut self) -> Block {
        let bytes = self.bytes();
        self.channel(&bytes, 0)
    }

    /// The next block of two channels, of which each bench has its own.
    fn stereo(&mut self) -> [Block; 2] {
        let bytes = self.bytes();
        Side::BOTH.map(|side| self.channel(&bytes, side as usize))
    }

    /// What was not as it should be, if nothing is lost by it.
    fn notes(&self) -> Vec<String> {
        let clipped = match self.clipped {
            0 => None,
            1 => Some("1 sample was beyond full scale, and is clipped".into()),
            n => Some(format!("{n} samples were beyond full scale, and are clipped")),
        };
        let more = match self.unannounced {
            Unannounced::More { holds, are_read: true } => {
                let [announced, holds] = seconds(self.reader.promised().unwrap_or(0), holds);
                Some(format!("its header announces {announced} s of audio; all {holds} s are cleaned"))
            }
            _ => None,
        };
        [more, clipped].into_iter().flatten().map(|note| line_of(&self.name, note)).collect()
    }

    /// Why a channel ends before its recording does.
    fn broken(&self, side: Side, channel: usize) -> Option<Error> {
        let at = self.broken[channel]? as f64 / f64::from(RATE);
        Some(Error::wrong(format!("{}, at {at:.2} s: not a finite number", side.name())).at(&self.name))
    }

    /// Why a recording ends before all of it was read.
    fn cut(&self) -> Option<Error> {
        let (read, promised) = (self.reader.given, self.reader.promised());
        let after = |of: u64| seconds(read, of);
        let why = match (&self.fault, self.length) {
            (Some(why), _) => format!("at {} s: it can't be read on: {why}", after(0)[0]),
            (None, Some(length)) if signals::asked() && read < length => {
                let [read, length] = after(length);
                format!("stopped after {read} of {length} s")
            }
            _ if !self.reader.ended || signals::asked() => return None,
            _ if read == 0 => self.reader.has_head().then(|| "no audio follows its header".into())?,
            _ if self.unannounced == Unannounced::All => {
                format!("its header says that there is no audio; the {} s after it are cleaned", after(0)[0])
            }
            _ if matches!(self.unannounced, Unannounced::More { are_read: true, .. }) => return None,
            _ => match (self.unannounced, promised) {
                (Unannounced::More { holds, .. }, _) => {
                    let [read, holds] = after(holds);
                    format!(
                        "its header announces {read} s of audio, but the file holds {holds} s; the rest is not \
                         cleaned. --to-the-end cleans all of it"
                    )
                }
                (_, Some(promised)) if read < promised => {
                    let [read, promised] = after(promised);
                    let what = if self.length.is_some() { "the file" } else { "it" };
                    format!("{what} ends after {read} s, but its header announces {promised} s")
                }
                _ => return None,
            },
        };
        Some(Error::wrong(why).at(&self.name))
    }
}

/// Whose recording is not whole, and why.
pub struct Lost {
    pub sides: Vec<Side>,
    pub why: Error,
}

impl Lost {
    pub fn of(side: Side, why: Error) -> Lost {
        Lost { sides: vec![side], why }
    }
}

/// A file for one bench or for each, or both benches as the channels of one recording.
pub enum Recordings {
    One(Side, Recording),
    Two(Box<[Recording; 2]>),
    Stereo(Recording),
}

/// Standard input as it is, so that it can be waited for.
fn standard_input() -> io::Result<File> {
    Ok(io::stdin().as_fd().try_clone_to_owned()?.into())
}

/// Samples without a header, from the start on. Bytes with which another kind of file begins are refused.
fn raw(mut from: Until, name: &Path, channels: usize) -> Result<Reader<Box<dyn Read>>> {
    let mut head = Vec::new();
    from.by_ref().take(form::HEAD as u64).read_to_end(&mut head).at(name)?;
    match form::known(&head) {
        Some(form) => Err(Error::wrong(format!("this is {form}, and not samples alone as --raw says")).at(name)),
        None => Ok(Reader::raw(Box::new(Cursor::new(head).chain(from)), RATE, channels)),
    }
}

impl Recordings {
    pub fn one(side: Side, path: &Path, how: How) -> Result<Recordings> {
        Ok(Recordings::One(side, Opened::new(path)?.read(1, how)?))
    }

    /// Both are opened before either is read: one program may write into two pipes.
    pub fn two(left: &Path, right: &Path, how: How) -> Result<Recordings> {
        let (left, right) = (Opened::new(left)?, Opened::new(right)?);
        Ok(Recordings::Two([left.read(1, how)?, right.read(1, how)?].into()))
    }

    pub fn stereo(path: &Path, how: How) -> Result<Recordings> {
        Ok(Recordings::Stereo(Opened::new(path)?.read(2, how)?))
    }

    fn all(&self) -> &[Recording] {
        match self {
            Recordings::Two(both) => &both[..],
            Recordings::One(_, one) | Recordings::Stereo(one) => std::slice::from_ref(one),
        }
    }

    /// The length of the longer one, where that is known.
    pub fn length(&self) -> Option<u64> {
        self.all().iter().map(|recording| recording.length).max().flatten()
    }

    /// The length of a bench's, where that is known.
    pub fn length_of(&self, side: Side) -> Option<u64> {
        match self {
            Recordings::Two(both) => both[side as usize].length,
            Recordings::One(_, one) | Recordings::Stereo(one) => one.length,
        }
    }

    /// What was not as it should be, if nothing is lost by it.
    pub fn notes(&self) -> Vec<String> {
        self.all().iter().flat_map(Recording::notes).collect()
    }

    /// What is missing of what should have been read.
    pub fn lost(&self) -> Vec<Lost> {
        let broken = |side: Side| match self {
            Recordings::One(its, one) => one.broken(side, 0).filter(|_| *its == side),
            Recordings::Two(both) => both[side as usize].broken(side, 0),
            Recordings::Stereo(one) => one.broken(side, side as usize),
        };
        let broken = |side: Side| broken(side).map(|why| Lost::of(side, why));
        let sides = match self {
            Recordings::One(side, _) => vec![vec![*side]],
            Recordings::Two(_) => Side::BOTH.map(|side| vec![side]).to_vec(),
            Recordings::Stereo(_) => vec![Side::BOTH.to_vec()],
        };
        let cut = self.all().iter().zip(sides).filter_map(|(one, sides)| Some(Lost { sides, why: one.cut()? }));
        Side::BOTH.into_iter().filter_map(broken).chain(cut).collect()
    }
}

impl Source for Recordings {
    fn next(&mut self) -> [Block; 2] {
        match self {
            Recordings::One(side, one) => {
                let mut blocks = Side::BOTH.map(|_| Block::silence(0));
                blocks[*side as usize] = one.mono();
                blocks
            }
            Recordings::Two(both) => both.each_mut().map(Recording::mono),
            Recordings::Stereo(one) => one.stereo(),
        }
    }
}
