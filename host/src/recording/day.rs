//! What `box clean --split` writes, as it goes: each dictation of a bench is a recording of its own, in the folder of
//! its day. It is closed, judged and told while the stream goes on, and then the page is written anew. The benches know
//! nothing of each other: a bench's dictations hang on what comes from that bench alone.

use crate::cleaning::cleaned::{Summary, LIKELY};
use crate::cleaning::recorder::{Frame, Side};
use crate::cleaning::run::Sink;
use crate::cleaning::split::Cutter;
use crate::error::{At, Error, Result};
use crate::page::day::{day_html, BEGINS};
use crate::recording::closing::Closer;
use crate::recording::files::PAGE;
use crate::recording::folder::Folder;
use crate::recording::front::{Front, MOST};
use crate::recording::judge::Told;
use crate::recording::listed::{dictations, note_dictation, Voice, BEFORE};
use crate::recording::original::Original;
use crate::recording::place::{beside, is_taken, new_file};
use crate::recording::rolling::{full_at, BYTES};
use crate::recording::through::Through;
use crate::recording::times::{day_of, name_of, Times};
use crate::recording::unfinished::{self, mend_command, PART, SHEET};
use crate::recording::writing::Recording;
use crate::sys::disk::{sync_all, sync_folder};
use crate::{FRAME, RATE};
use std::collections::VecDeque;
use std::fs::{self, File};
use std::io::{Read, Write};
use std::path::{Path, PathBuf};

/// A dictation that was closed.
pub struct Closed {
    /// Where it stands.
    pub place: PathBuf,
    /// What the judge said of it.
    pub told: Told,
    pub summary: Summary,
    pub voice: Voice,
    /// Why it ends before its time, if it does.
    pub fault: Option<String>,
}

/// Tells of a dictation that was closed.
pub type Tell = Box<dyn Fn(&Closed) + Send>;

/// A dictation that is being written. If it is dropped, its files stay as they are.
pub struct Dictation {
    /// `None` once its files are kept, or taken away.
    folder: Option<Folder>,
    /// The folder of its day.
    day: PathBuf,
    name: String,
    front: Front,
    /// `None` once it is closed.
    recording: Option<Recording>,
    /// The recording as it was before cleaning, if that is kept.
    before: Option<Original>,
    through: Option<Through>,
    summary: Summary,
    fault: Option<String>,
}

impl Drop for Dictation {
    fn drop(&mut self) {
        self.folder.iter_mut().for_each(Folder::leave);
        self.before.iter_mut().for_each(Original::leave);
    }
}

/// A name for a dictation that no file has, closed or under way.
fn free_name(day: &Path, front: Front) -> String {
    let name = |number: Option<u32>| name_of(front.began, front.side, number);
    let numbers = std::iter::once(None).chain((2..).map(Some));
    let is_free = |name: &String| {
        let places = [day.join(name), day.join(BEFORE).join(name)];
        places.iter().all(|place| ["", PART, SHEET].iter().all(|ending| !is_taken(&beside(place, ending))))
    };
    numbers.map(name).find(is_free).expect("there is always another name")
}

impl Dictation {
    fn new(out: &Path, front: Front, keep_before: bool) -> Result<Dictation> {
        let day = out.join(day_of(front.began));
        let mut folder = Folder::new(&day, false)?;
        let name = free_name(&day, front);
        let recording = Recording::new(&mut folder, &name, front.side, front.began, front.first)?;
        let before = keep_before.then(|| Original::new(&day, &name)).transpose()?;
        let files = recording.files().map(File::try_clone).into_iter().collect::<Result<_, _>>().at(&day.join(&name))?;
        sync_folder(&day);
        let through = Some(Through::new(files));
        let summary = if front.first == 0 { Summary::of(front.side) } else { Summary::cut(front.side) };
        let folder = Some(folder);
        Ok(Dictation { folder, day, name, front, recording: Some(recording), before, through, summary, fault: None })
    }

    /// Its next frames and their sound, and as much of what was recorded.
    fn write(&mut self, frames: &[Frame], audio: &[u8], before: &[f32]) -> Result<()> {
        let Some(recording) = &mut self.recording else { return Ok(()) };
        recording.records(&frames.iter().map(|frame| frame.record).collect::<Vec<_>>())?;
        recording.audio(audio)?;
        self.before.as_mut().map_or(Ok(()), |original| original.write(before))?;
        self.summary.before(before);
        frames.iter().for_each(|frame| self.summary.frame(frame));
        self.summary.after(audio);
        self.through.as_mut().map_or(Ok(()), Through::look).at(&self.day.join(&self.name))
    }

    fn is_empty(&self) -> bool {
        self.recording.as_ref().is_none_or(Recording::is_empty)
    }

    /// Takes its files away, as if it had never begun.
    fn discard(mut self) {
        self.through = None;
        drop(self.before.take());
        drop(self.folder.take());
        // the other bench's dictation may have found these folders here; they stay if they are not empty
        [self.day.join(BEFORE), self.day.clone()].iter().for_each(|folder| _ = fs::remove_dir(folder));
    }

    /// Where the voice is in it. What comes out of a frame belongs to the one before it: where the first frame brought
    /// audio, a frame's own audio comes with the next one.
    fn voice(&self) -> Voice {
        let shift = u64::from(self.front.first != 0);
        let second = |frame: u64| ((frame + shift) * FRAME as u64) as f64 / f64::from(RATE);
        match (self.summary.first_voice.begins(), self.summary.first_voice.ends()) {
            (Some(first), Some(last)) => {
                let last = second(last + 1).min(self.summary.seconds());
                Voice::From { first: second(first), last }
            }
            _ => Voice::None,
        }
    }

    /// Closes it and gives it its place, notes it in the table of its day, writes the page anew, and tells of it.
    pub fn close(mut self, out: &Path, tell: &Tell) -> Result<()> {
        self.through = None;
        let Some(recording) = self.recording.take() else { return Ok(()) };
        let (told, voice) = (recording.finish()?, self.voice());
        self.before.take().map_or(Ok(()), Original::keep)?;
        self.folder.take().map_or(Ok(()), |mut folder| folder.keep())?;
        let summary = std::mem::replace(&mut self.summary, Summary::of(self.front.side));
        note_dictation(&self.day, &self.name, self.front, told.frames, told.heard, summary.seconds(), voice)?;
        put_page(out)?;
        let place = self.day.join(&self.name);
        tell(&Closed { place, told, summary, voice, fault: self.fault.take() });
        Ok(())
    }
}

/// Writes the page of all dictations in a folder anew: beside its place, and then there in one step.
pub fn put_page(out: &Path) -> Result<()> {
    let (place, new) = (out.join(PAGE), out.join(format!("{PAGE}.new")));
    // what a crash left there; a link is not followed
    let _ = fs::remove_file(&new);
    let written = new_file(&new).and_then(|mut file| {
        file.write_all(day_html(&dictations(out)).as_bytes())?;
        sync_all(&file)
    });
    written.and_then(|()| fs::rename(&new, &place)).at(&place)?;
    sync_folder(out);
    Ok(())
}

/// Whether the page of a folder is one of dictations, or there is none.
pub fn is_page_ours(out: &Path) -> bool {
    let mut begins = vec![];
    match File::open(out.join(PAGE)) {
        Ok(page) => page.take(BEGINS.len() as u64).read_to_end(&mut begins).is_ok() && begins == BEGINS.as_bytes(),
        Err(_) => !is_taken(&out.join(PAGE)),
    }
}

/// What a bench has handed in that is not in a recording yet, and its dictation that is under way.
struct Bench {
    side: Side,
    times: Times,
    cutter: Cutter,
    /// Frames that wait, and how many were written before them.
    frames: VecDeque<Frame>,
    passed: u64,
    /// Their sound.
    audio: VecDeque<u8>,
    /// What was recorded and waits, and how much has come.
    before: VecDeque<f32>,
    come: u64,
    /// The frames with which further dictations begin, counted from the opening.
    cuts: VecDeque<u64>,
    under_way: Option<(u64, Dictation)>,
}

impl Bench {
    fn new(side: Side, split: f64) -> Bench {
        Bench {
            side,
            times: Times::Clock,
            cutter: Cutter::new(split),
            frames: VecDeque::new(),
            passed: 0,
            audio: VecDeque::new(),
            before: VecDeque::new(),
            come: 0,
            cuts: VecDeque::new(),
            under_way: None,
        }
    }

    /// What was recorded.
    fn record(&mut self, samples: &[f32]) {
        self.come += samples.len() as u64;
        self.before.extend(samples);
    }

    fn frame(&mut self, frame: Frame) {
        self.cuts.extend(self.cutter.frame(frame.heard.voice() > LIKELY));
        self.frames.push_back(frame);
    }

    /// The dictation that is under way, or a new one that begins with the next frame.
    fn dictation(&mut self, how: &How) -> Result<&mut Dictation> {
        let first = self.passed;
        if self.under_way.is_none() {
            let before = FRAME as u64 * first.saturating_sub(1);
            let began = self.times.of(before, self.come.saturating_sub(before));
            let front = Front { side: self.side, began, first: first as u32 };
            self.under_way = Some((first, Dictation::new(&how.out, front, how.keep_before)?));
        }
        Ok(&mut self.under_way.as_mut().expect("it was begun just now").1)
    }

    /// Writes the frames before this one, with their sound. Where a dictation ends, it goes to be closed.
    fn pass(&mut self, to: u64, how: &How, closer: &mut Closer) -> Result<()> {
        while self.passed < to {
            let cut = self.cuts.front().copied().filter(|cut| *cut == self.passed);
            let is_full = self.under_way.as_ref().is_some_and(|(first, _)| full_at(*first, how.most) == self.passed);
            if cut.is_some() || is_full {
                if cut.is_some() {
                    self.cuts.pop_front();
                }
                if let Some((_, dictation)) = self.under_way.take() {
                    closer.close(dictation)?;
                }
            }
            self.dictation(how)?;
            let first = self.under_way.as_ref().map_or(self.passed, |(first, _)| *first);
            let end = to.min(full_at(first, how.most)).min(self.cuts.front().copied().unwrap_or(u64::MAX));
            self.write(end)?;
        }
        Ok(())
    }

    /// Writes the frames before this one into the dictation that is under way.
    fn write(&mut self, end: u64) -> Result<()> {
        let count = (end - self.passed) as usize;
        let frames: Vec<Frame> = self.frames.drain(..count.min(self.frames.len())).collect();
        // the first frame after the opening brings no sound
        let sounding = count - usize::from(self.passed == 0 && count > 0);
        let audio: Vec<u8> = self.audio.drain(..(BYTES as usize * sounding).min(self.audio.len())).collect();
        let before: Vec<f32> = self.before.drain(..(FRAME * sounding).min(self.before.len())).collect();
        self.passed = end;
        match &mut self.under_way {
            Some((_, dictation)) => dictation.write(&frames, &audio, &before),
            None => Ok(()),
        }
    }
}

/// What all benches share.
struct How {
    out: PathBuf,
    keep_before: bool,
    /// The most bytes of audio that a recording may have.
    most: u32,
}

/// How a stream is cut into dictations, and where they are written.
pub struct Plan<'a> {
    pub out: &'a Path,
    /// A dictation is over after this many seconds without a voice.
    pub split: f64,
    pub keep_before: bool,
    /// Whether a page that is there may be written over.
    pub force: bool,
}

/// Dictations on their way.
pub struct Day {
    benches: [Bench; 2],
    how: How,
    closer: Closer,
    /// Holds the lock, and takes the folder away if nothing comes to stand in it.
    folder: Folder,
}

impl Day {
    /// No other run may be writing into the folder, and none may have left unfinished files there.
    pub fn new(plan: &Plan, tell: Tell) -> Result<Day> {
        let mut folder = Folder::new(plan.out, plan.force)?;
        folder.lock()?;
        unfinished::refuse(plan.out)?;
        if !is_page_ours(plan.out) {
            folder.claim([PAGE])?;
        }
        let how = How { out: plan.out.to_owned(), keep_before: plan.keep_before, most: MOST };
        let closer = Closer::new(plan.out.to_owned(), tell);
        Ok(Day { benches: Side::BOTH.map(|side| Bench::new(side, plan.split)), how, closer, folder })
    }

    /// The same, with recordings of at most so many bytes of audio.
    pub fn at_most(mut self, bytes: u32) -> Day {
        self.how.most = bytes;
        self
    }

    /// What tells the time of each bench's samples.
    pub fn set_times(&mut self, times: [Times; 2]) {
        self.benches.iter_mut().zip(times).for_each(|(bench, times)| bench.times = times);
    }

    /// Why a bench ends before its time. It is told with the bench's last dictation.
    pub fn fault(&mut self, side: Side, why: &str) {
        if let Some((_, dictation)) = &mut self.benches[side as usize].under_way {
            dictation.fault.get_or_insert(why.into());
        }
    }

    /// The streams are at their ends: closes what is under way. Whether any dictation was written.
    pub fn finish(mut self) -> Result<bool> {
        for bench in &mut self.benches {
            bench.pass(bench.passed + bench.frames.len() as u64, &self.how, &mut self.closer)?;
        }
        self.end()
    }

    fn end(mut self) -> Result<bool> {
        for bench in &mut self.benches {
            match bench.under_way.take() {
                Some((_, dictation)) if dictation.is_empty() => dictation.discard(),
                Some((_, dictation)) => self.closer.close(dictation)?,
                None => {}
            }
        }
        let any = self.closer.finish()? > 0;
        if any {
            self.folder.keep()?;
        }
        Ok(any)
    }

    /// Takes away what is under way: both benches are found to be one voice.
    pub fn discard(mut self) {
        let under_way = self.benches.iter_mut().filter_map(|bench| bench.under_way.take());
        under_way.for_each(|(_, dictation)| dictation.discard());
    }

    /// Why the dictations can't be finished, and what becomes of them.
    pub fn give_up(mut self, why: Error) -> Error {
        let is_left = self.benches.iter().any(|bench| bench.under_way.is_some());
        let why = self.closer.finish().err().unwrap_or(why);
        if !is_left {
            return why;
        }
        self.folder.leave();
        day_given_up(&self.how.out, why)
    }
}

/// Why something could not be finished, and how it is closed.
pub fn day_given_up(out: &Path, why: Error) -> Error {
    let command = mend_command(out);
    why.reworded(|why| format!("{why}; what was cleaned is left unfinished, and {command} closes it"))
}

impl Sink for Day {
    fn before(&mut self, side: Side, samples: &[f32]) -> Result<()> {
        self.benches[side as usize].record(samples);
        Ok(())
    }

    fn frames(&mut self, frames: &[Vec<Frame>; 2]) -> Result<()> {
        for (bench, frames) in self.benches.iter_mut().zip(frames) {
            frames.iter().for_each(|frame| bench.frame(*frame));
        }
        self.closer.look()
    }

    fn after(&mut self, side: Side, bytes: &[u8]) -> Result<()> {
        let bench = &mut self.benches[side as usize];
        bench.audio.extend(bytes);
        // what is settled, and never more than has come
        let settled = bench.cuts.back().copied().unwrap_or(0).max(bench.cutter.settled());
        let come = bench.passed + bench.frames.len() as u64;
        bench.pass(settled.min(come), &self.how, &mut self.closer)
    }
}

#[cfg(test)]
mod tests {
    use super::*;
    use crate::cleaning::recorder::Heard;
    use crate::reading::block::Layout;
    use crate::recording::times::read_moment;
    use std::ops::Range;
    use std::sync::{Arc, Mutex};

    /// What was told of a dictation: its name, its first frame, where its voice begins and ends, and its fault.
    type Said = (String, u32, Option<[f64; 2]>, Option<String>);

    /// The sample of a bench at a place, which is no other bench's.
    fn sample(side: Side, at: u64) -> f32 {
        ((at / 480) % 1_000) as f32 + if side == Side::Left { 2_000.0 } else { -9_000.0 }
    }

    fn samples(side: Side, places: Range<u64>) -> Vec<f32> {
        places.map(|at| sample(side, at)).collect()
    }

    /// Hands in so many frames of both benches, eight at a time, with voices in these of each. What comes out of a
    /// bench is 1 more than what went in.
    fn hand_in(day: &mut Day, frames: u64, voices: [&[Range<u64>]; 2]) {
        for first in (0..frames).step_by(8) {
            let numbers = first..(first + 8).min(frames);
            let frame = |side: Side, number: u64| {
                let voice = voices[side as usize].iter().any(|voice| voice.contains(&number));
                let heard = Heard::Voice { probability: if voice { 0.9 } else { 0.1 }, energy: 1.0 };
                Frame::of(side, number as u32, heard, 0)
            };
            for side in Side::BOTH {
                day.before(side, &samples(side, 480 * numbers.start..480 * numbers.end)).unwrap();
            }
            let all = Side::BOTH.map(|side| numbers.clone().map(|number| frame(side, number)).collect());
            day.frames(&all).unwrap();
            for side in Side::BOTH {
                let out = 480 * numbers.start.max(1) - 480..480 * numbers.end - 480;
                let after: Vec<f32> = samples(side, out).iter().map(|x| x + 1.0).collect();
                day.after(side, &crate::reading::block::packed(&after)).unwrap();
            }
        }
    }

    /// A day in a folder of its own that began at 9 o'clock at the left bench, and ten seconds later at the right one.
    fn day(name: &str) -> (PathBuf, Arc<Mutex<Vec<Said>>>, Day) {
        let out = std::env::temp_dir().join(format!("day-{}-{name}", std::process::id()));
        let _ = fs::remove_dir_all(&out);
        let said = Arc::new(Mutex::new(vec![]));
        let told = said.clone();
        let tell: Tell = Box::new(move |closed| {
            let name = closed.place.file_name().unwrap().to_str().unwrap().to_string();
            let voice = match closed.voice {
                Voice::From { first, last } => Some([first, last]),
                _ => None,
            };
            told.lock().unwrap().push((name, closed.told.front.first, voice, closed.fault.clone()));
        });
        let mut day = Day::new(&Plan { out: &out, split: 2.0, keep_before: true, force: false }, tell).unwrap();
        let start = read_moment("2026-11-16T09:00:00").unwrap();
        day.set_times([start, start + 10].map(Times::From));
        (out, said, day)
    }

    /// A dictation's file has the sound of its own bench, from its first frame on, and so has its original.
    fn has_its_own(out: &Path, name: &str, side: Side, sound: Range<u64>) {
        let place = out.join("2026-11-16").join(name);
        let bytes = fs::read(&place).unwrap();
        let told = crate::recording::judge::judged(&mut &bytes[..]).unwrap().unwrap();
        assert_eq!(told.front.side, side, "{name}");
        let wanted: Vec<f32> = samples(side, sound.clone()).iter().map(|x| x + 1.0).collect();
        let audio = &bytes[76..76 + 2 * wanted.len()];
        assert!(Layout::CLEANED.samples(audio, 0) == wanted, "{name}");
        let before = fs::read(out.join("2026-11-16/before").join(name)).unwrap();
        assert!(Layout::CLEANED.samples(&before[44..], 0) == samples(side, sound), "{name}");
    }

    /// Each bench is cut by its own voices, and has its own sound, its own originals, its own times and its own faults.
    #[test]
    fn each_bench_has_its_own_dictations() {
        let (out, said, mut day) = day("own");
        hand_in(&mut day, 1_001, [&[100..200, 600..700], &[300..400, 800..900]]);
        day.fault(Side::Right, "torn");
        assert_eq!(day.finish(), Ok(true));
        let mut said = said.lock().unwrap().clone();
        said.sort_by_key(|(name, ..)| name.clone());
        let wanted = [
            ("090000-left.wav", 0, [1.0, 2.0], None),
            ("090005-left.wav", 551, [0.5, 1.5], None),
            ("090010-right.wav", 0, [3.0, 4.0], None),
            ("090017-right.wav", 751, [0.5, 1.5], Some("torn".into())),
        ];
        assert_eq!(said, wanted.map(|(name, first, voice, fault)| (name.to_string(), first, Some(voice), fault)));
        let [left, right] = Side::BOTH;
        has_its_own(&out, "090000-left.wav", left, 0..480 * 550);
        has_its_own(&out, "090005-left.wav", left, 480 * 550..480 * 1_000);
        has_its_own(&out, "090010-right.wav", right, 0..480 * 750);
        has_its_own(&out, "090017-right.wav", right, 480 * 750..480 * 1_000);
        let page = fs::read_to_string(out.join(PAGE)).unwrap();
        assert_eq!(page.matches("<tr><th scope=\"row\">").count(), 4);
        fs::remove_dir_all(out).unwrap();
    }

    /// A recording that is full goes on in the next one, with the next frame.
    #[test]
    fn a_dictation_that_is_full() {
        let (out, said, day) = day("full");
        let mut day = day.at_most(960 * 400 + 7);
        hand_in(&mut day, 1_001, [&[100..200, 600..700], &[]]);
        assert_eq!(day.finish(), Ok(true));
        let mut firsts: Vec<(String, u32)> =
            said.lock().unwrap().iter().map(|(name, first, ..)| (name.clone(), *first)).collect();
        firsts.sort();
        let wanted = [
            ("090000-left.wav", 0),
            ("090004-left.wav", 401),
            ("090005-left.wav", 551),
            ("090009-left.wav", 951),
            ("090010-right.wav", 0),
            ("090014-right.wav", 401),
            ("090018-right.wav", 801),
        ];
        assert_eq!(firsts, wanted.map(|(name, first)| (name.to_string(), first)));
        has_its_own(&out, "090009-left.wav", Side::Left, 480 * 950..480 * 1_000);
        has_its_own(&out, "090014-right.wav", Side::Right, 480 * 400..480 * 800);
        fs::remove_dir_all(out).unwrap();
    }

    /// What is discarded leaves nothing, and what is dropped is left for `mend`.
    #[test]
    fn what_is_not_finished() {
        let (out, _, mut day) = day("discarded");
        hand_in(&mut day, 100, [&[], &[]]);
        day.discard();
        assert!(!out.exists());
        let (out, _, mut day) = self::day("dropped");
        hand_in(&mut day, 100, [&[], &[]]);
        let why = day.give_up(Error::undone("no room")).to_string();
        assert!(why.starts_with("no room; what was cleaned is left unfinished, and `box mend "), "{why}");
        assert_eq!(unfinished::recordings(&out).len(), 4);
        let again = Day::new(&Plan { out: &out, split: 2.0, keep_before: false, force: false }, Box::new(|_| ()));
        assert!(again.is_err_and(|why| why.to_string().contains("is of a run that was not finished")));
        fs::remove_dir_all(out).unwrap();
    }
}
