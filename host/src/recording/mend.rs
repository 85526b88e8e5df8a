//! `box mend FILE --out FILE2`: a recording that the judge does not accept, written again as the box writes it. Its
//! side is what one of its seals says, or a person says it. It is read and written in parts.

use crate::cleaning::recorder::Side;
use crate::error::{At, Error, Reason, Result};
use crate::reading::wav::{self, Audio};
use crate::recording::after::{look_after, records_of, write_after, HEARD, RECORD};
use crate::recording::front::{size_in, Front, CHUNK, HEAD, MOST};
use crate::recording::judge::{judged, Told};
use crate::recording::place::{beside, give_place, is_taken, new_file};
use crate::recording::seal::Seal;
use crate::recording::unfinished::{self, zeros};
use crate::recording::writing::accepted;
use crate::sys::disk::sync_all;
use crate::telling::found::{bytes_at, follows, is_of, Follows, Found};
use crate::telling::names::means_another;
use crate::telling::refusal::Refusal;
use crate::telling::refused::{ELSEWHERE, OTHER_AUDIO};
use crate::telling::shown::line_of;
use crate::RATE;
use std::fs::{self, File};
use std::io::{self, ErrorKind, Read, Seek, SeekFrom, Write};
use std::path::Path;

/// What says the side of a recording that is mended.
#[derive(Clone, Copy, Debug, PartialEq)]
pub enum Says {
    /// A seal, and a seal proves that its audio is as it was written.
    Seal,
    /// Its front seal. The end seal was lost with the end of the file, and nothing proves its audio.
    Front,
    /// A person.
    Person,
}

/// Where the parts of a recording are in a file, and what becomes of them.
#[derive(Debug)]
pub struct Plan {
    pub front: Front,
    pub says: Says,
    /// Where the audio is that is kept.
    audio: Audio,
    /// Where its records start.
    records: u64,
    /// How many of them were lost.
    pub rewritten: u64,
    /// How many bytes of audio the head announces beyond those that are in the file.
    pub lost: u64,
    /// Whether the file is accepted as it is.
    pub whole: bool,
    /// Whether an earlier version of the box wrote it.
    earlier: bool,
    /// What follows the recording in the file, and is left out.
    follows: Follows,
}

/// A file that is to be mended.
struct Mending<'a, F> {
    file: &'a mut F,
    found: Found,
    /// What the judge says of it.
    verdict: Result<Told, Refusal>,
    /// The side that a person says.
    said: Option<Side>,
}

const NO_AUDIO: &str = "there is no audio in it";

fn undone<T>(why: impl Into<Reason>) -> Result<T> {
    Err(Error::Undone(why.into()))
}

/// Audio of ours at a place. It is read again as whole samples.
fn audio_at(place: u64, size: u64) -> Audio {
    Audio { place, size: size - size % 2, is_ours: true }
}

impl<F: Read + Seek> Mending<'_, F> {
    fn checksum(&mut self, audio: Audio) -> io::Result<u32> {
        self.file.seek(SeekFrom::Start(audio.place))?;
        Ok(wav::checksum(self.file, audio.size)?.1)
    }

    /// Refuses a person's word if a seal says another side.
    fn not_contradicted(&self, side: Side) -> Result<()> {
        match self.said.filter(|said| *said != side) {
            Some(_) => undone(format!("its seal says {}", side.name())),
            None => Ok(()),
        }
    }

    /// Of a recording whose front seal is whole: how much audio it has, and what says its side.
    fn by_front(&mut self, head: [u8; HEAD], front: Front) -> Result<(Audio, Says)> {
        self.not_contradicted(front.side)?;
        let here = self.found.size.saturating_sub(HEAD as u64);
        let said = size_in(&head);
        if here < 2 {
            return undone(NO_AUDIO);
        }
        if head == front.open_head() {
            return Ok((audio_at(HEAD as u64, here.min(MOST.into())), Says::Front));
        }
        if front.head(said) == Ok(head) {
            let audio = audio_at(HEAD as u64, here.min(said.into()));
            return Ok((audio, self.by_end(front, audio, HEAD as u64 + u64::from(said))?));
        }
        // the head says no length that can be relied on: the end seal must be where one of these lengths puts it
        let by_sheet = self.found.sheet.and_then(|sheet| sheet.start.checked_sub((HEAD + CHUNK) as u64));
        for size in [Some(said.into()), by_sheet].into_iter().flatten().filter(|size| *size <= here) {
            let audio = audio_at(HEAD as u64, size);
            if self.by_end(front, audio, audio.end()).is_ok_and(|says| says == Says::Seal) {
                return Ok((audio, Says::Seal));
            }
        }
        undone("its head was changed, and nothing tells where its audio ends")
    }

    /// What stands behind the audio: the end seal of this audio; nothing, or zeros, where the file was cut; or else
    /// something that contradicts it, and then a person must say the side.
    fn by_end(&mut self, front: Front, audio: Audio, place: u64) -> Result<Says> {
        let wanted = front.chunk(audio.size as u32, self.checksum(audio)?)?;
        let here = bytes_at(self.file, place, CHUNK)?;
        let written = here.iter().rposition(|byte| *byte != 0).map_or(0, |last| last + 1);
        if here == wanted {
            return Ok(Says::Seal);
        }
        if wanted.starts_with(&here[..written]) {
            return Ok(Says::Front);
        }
        match here.get(8..).map(Seal::read) {
            Some(Ok(seal)) if seal.side != front.side => {
                let (front, end) = (front.side.name(), seal.side.name());
                undone(format!("its front seal says {front}, and its end seal {end}"))
            }
            _ if self.said.is_some() => Ok(Says::Person),
            Some(Err(refused)) => undone(refused).map_err(|why| add_as(why, front.side, "front seal says")),
            _ => undone(OTHER_AUDIO).map_err(|why| add_as(why, front.side, "front seal says")),
        }
    }

    /// Of a recording without a whole front seal: its audio, where its records start, and what says which side.
    fn by_header(&mut self) -> Result<(Front, Audio, u64, Says)> {
        let audio = self.found.audio.clone()?;
        if audio.end() > self.found.size {
            return Err(Refusal(37).into());
        }
        if !audio.is_ours {
            return undone("one channel of 16 bits and 48,000 samples a second is wanted, as the box writes it");
        }
        // a file of before has records alone
        let records = audio.end() + if self.found.seal.is_some() { CHUNK as u64 } else { 0 };
        let by_record = first_of(&bytes_at(self.file, records, RECORD)?);
        let (side, says) = self.told_side(audio, by_record.map(|first| first.side))?;
        let is_earlier = audio.place < HEAD as u64;
        let first = by_record.filter(|_| !is_earlier).map_or(0, |first| first.first);
        Ok((Front { side, began: 0, first }, audio, records, says))
    }

    /// The side that the end seal says, if it is of this audio; or else what a person says.
    fn told_side(&mut self, audio: Audio, by_record: Option<Side>) -> Result<(Side, Says)> {
        let seal = match self.found.seal {
            Some(Ok(seal)) if is_of(seal, audio, self.file)? => {
                self.not_contradicted(seal.side)?;
                return Ok((seal.side, Says::Seal));
            }
            Some(Ok(_)) => Error::undone(OTHER_AUDIO),
            Some(Err(refused)) => refused.into(),
            None if self.found.before.is_some() => Error::undone(ELSEWHERE),
            None if self.found.sheet.is_some() => Error::undone("a side sheet without a seal tells no side"),
            None => Refusal(61).into(),
        };
        match (self.said, by_record) {
            (_, None) => Err(seal),
            (Some(side), Some(_)) => Ok((side, Says::Person)),
            (None, Some(side)) => Err(add_as(seal, side, "records say")),
        }
    }

    fn plan(mut self) -> Result<Plan> {
        let earlier = self.found.front.is_none() && self.found.audio.as_ref().is_ok_and(|a| a.place < HEAD as u64);
        let (front, audio, records, says) = match (self.found.head, self.found.front) {
            (Some(head), Some(front)) => {
                let (audio, says) = self.by_front(head, front)?;
                (front, audio, audio.end() + CHUNK as u64, says)
            }
            _ => self.by_header()?,
        };
        if audio.size == 0 {
            return undone(NO_AUDIO);
        }
        self.file.seek(SeekFrom::Start(records))?;
        let found = look_after(front, audio.size as u32, self.file)?;
        if found.is_mixed() {
            return undone(format!("its records are of the {} side", front.side.other().name()));
        }
        let announced = self.found.head.filter(|_| says == Says::Front).map_or(0, |head| u64::from(size_in(&head)));
        let lost = if announced == u64::from(u32::MAX) { 0 } else { announced.saturating_sub(audio.size) };
        let follows = match self.verdict {
            Err(Refusal(66)) => follows(self.file, end_of(self.found.head))?,
            _ => Follows::Nothing,
        };
        Ok(Plan {
            front,
            says,
            audio,
            records,
            rewritten: found.lost,
            lost,
            whole: self.verdict.is_ok(),
            earlier,
            follows,
        })
    }
}

/// Where a recording ends, as its head says.
fn end_of(head: Option<[u8; HEAD]>) -> u64 {
    head.map_or(0, |head| 8 + u64::from(u32::from_le_bytes([head[4], head[5], head[6], head[7]])))
}

/// The side and the number that a frame's record says, if it is one.
fn first_of(record: &[u8]) -> Option<Front> {
    let [a, b, c, d, heard, side, ..] = *record.first_chunk::<RECORD>()?;
    let front = Front { side: *Side::BOTH.get(usize::from(side))?, began: 0, first: u32::from_le_bytes([a, b, c, d]) };
    let entry = u64::from(front.first) | if heard == 1 { HEARD } else { 0 };
    records_of(front, &[entry]).is_ok_and(|written| written == record).then_some(front)
}

/// Tells how a person can say the side.
fn add_as(why: Error, side: Side, what: &str) -> Error {
    let side = side.name();
    why.reworded(|why| format!("{why}; who knows that it is the {side} side, as its {what}, adds --as {side}"))
}

/// What mending gives of a file, or why it can't be mended.
pub fn plan_of(file: &mut (impl Read + Seek), said: Option<Side>) -> Result<Plan> {
    file.rewind()?;
    let verdict = judged(file)?;
    let found = Found::of(file)?;
    Mending { file, found, verdict, said }.plan()
}

impl Plan {
    /// Writes the recording anew. The judge then reads what was written.
    pub fn write(&self, from: &mut (impl Read + Seek), to: &mut impl Write) -> Result<()> {
        to.write_all(&self.front.head(self.audio.size as u32)?)?;
        from.seek(SeekFrom::Start(self.audio.place))?;
        let (mut left, mut sum, mut bytes) = (self.audio.size, 0, vec![0; 65_536]);
        while left > 0 {
            let part = bytes.len().min(usize::try_from(left).unwrap_or(usize::MAX));
            from.read_exact(&mut bytes[..part])?;
            to.write_all(&bytes[..part])?;
            sum = tuppence::checksum(sum, &bytes[..part]);
            left -= part as u64;
        }
        from.seek(SeekFrom::Start(self.records))?;
        write_after(to, self.front, self.audio.size as u32, sum, from).map(|_| ())
    }

    /// What a clerk is told of it, besides what it became. `zeros` are the last seconds that are zeros.
    fn told(&self, zeros: f64) -> String {
        let seconds = |bytes: u64| bytes as f64 / 2.0 / f64::from(RATE);
        if self.whole {
            return "It was sealed: the file is copied as it was.".into();
        }
        let mut text = format!("Kept {:.2} s.", seconds(self.audio.size));
        if self.lost > 0 {
            text += &format!(" The {:.2} s after them are not in the file.", seconds(self.lost));
        }
        text += &rewritten(self.rewritten);
        if zeros > 0.0 && self.says == Says::Front {
            text += &format!(" The last {zeros:.2} s are zeros, as a power cut may leave them.");
        }
        if self.earlier {
            text += " An earlier version of the box wrote it.";
        }
        match self.follows {
            Follows::Nothing => {}
            Follows::Bytes(n) => text += &format!(" The {n} bytes after its end are left out."),
            Follows::Recording => text += " Another recording follows in the file: this is the first one.",
        }
        match self.says {
            Says::Seal => {}
            Says::Front => text += " The seal after its audio was lost: nothing proves that this audio is as it was.",
            Says::Person => {
                text += &format!(" That it is the {} side is in no seal: you said so.", self.front.side.name());
            }
        }
        text
    }
}

/// What is said of records that were lost.
pub fn rewritten(records: u64) -> String {
    match records {
        0 => String::new(),
        1 => " The record of 1 frame was lost: it is marked as heard.".into(),
        many => format!(" The records of {many} frames were lost: these are marked as heard."),
    }
}

/// A recording that was mended, as the judge tells it.
#[derive(Debug)]
pub struct Mended {
    pub plan: Plan,
    pub told: Told,
    /// How many seconds at its end are zeros.
    zeros: f64,
}

impl Mended {
    /// Tells what was kept and what was lost.
    pub fn tell(&self, out: &Path) {
        crate::say!("{}\n{}", line_of(out, self.told), self.plan.told(self.zeros));
    }
}

/// Writes a mended recording beside its place. It gets its place if the judge accepts it as it is on the disk.
fn write_and_place(plan: &Plan, from: &mut File, out: &Path) -> Result<Told> {
    if is_taken(out) {
        return Err(io::Error::from(ErrorKind::AlreadyExists).into());
    }
    let part = beside(out, unfinished::PART);
    let mut new = new_file(&part)?;
    let written = plan.write(from, &mut new).and_then(|()| Ok(sync_all(&new)?));
    let put = written.and_then(|()| accepted(&part, plan.front)).and_then(|told| {
        give_place(&part, out)?;
        Ok(told)
    });
    if put.is_err() {
        let _ = fs::remove_file(part);
    }
    put
}

/// The file that is read is never written: what is written is a new file.
pub fn mend_file(path: &Path, out: &Path, said: Option<Side>) -> Result<Mended> {
    if path.to_string_lossy().ends_with(unfinished::PART) {
        let folder = path.parent().filter(|folder| *folder != Path::new("")).unwrap_or(Path::new("."));
        let why = format!("this was not finished; {} closes it", unfinished::mend_command(folder));
        return Err(Error::undone(why).at(path));
    }
    let mut file = File::open(path).at(path)?;
    let plan = plan_of(&mut file, said).at(path)?;
    if let Some(whose) = means_another(out, plan.front.side) {
        let why = format!("its {whose} says the other side: this is the {} side", plan.front.side.name());
        return Err(Error::wrong(format!("{why}; choose another --out")).at(out));
    }
    let zeros = zeros(&mut file, plan.audio.place, plan.audio.size).at(path)?;
    let told = write_and_place(&plan, &mut file, out).at(out)?;
    Ok(Mended { plan, told, zeros })
}
