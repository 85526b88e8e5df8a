//! `box clean`: two recordings, one for each bench, cleaned as they come.

use crate::cleaning::cleaned::Summary;
use crate::cleaning::day::Split;
use crate::cleaning::demo::{HOUSE, HOUSE_NAME};
use crate::cleaning::mix::{self, Apart};
use crate::cleaning::recorder::{Recorder, Side, Way};
use crate::cleaning::run::{run, Refused};
use crate::error::{At, Error, Reason, Result};
use crate::models::import;
use crate::page::about::About;
use crate::reading::source::{How, Lost, Recordings, STANDARD_INPUT};
use crate::recording::files::{recording, Files, Place};
use crate::sys::signals;
use crate::telling::progress::Watched;
use crate::RATE;
use std::path::{Path, PathBuf};

/// What to read, and where to write.
pub struct Job {
    pub inputs: Inputs,
    /// The house model where none is named.
    pub model: Option<PathBuf>,
    /// Whether the house model is used if the named one is refused.
    pub or_house: bool,
    pub way: Way,
    /// Whether no progress is told.
    pub quiet: bool,
    /// Whether what stands in the folder may be written over.
    pub force: bool,
    /// Whether a recording is taken although it seems to be the other bench's.
    pub anyway: bool,
    pub how: How,
    /// Whether the table of frames is written.
    pub csv: bool,
    pub out: PathBuf,
    /// What stands in front of the name of each file that is written.
    pub prefix: String,
    /// How it is cut into dictations, if it is.
    pub split: Option<Split>,
}

impl Job {
    /// Where a bench's recording comes to stand.
    pub fn place(&self, side: Side) -> PathBuf {
        self.out.join(self.prefix.clone() + &recording(side))
    }
}

/// What is read. A file called `-` is standard input.
pub enum Inputs {
    /// A file for one bench alone.
    One { side: Side, file: PathBuf },
    /// A file for each bench.
    Two { left: PathBuf, right: PathBuf },
    /// One file whose left channel is the left bench.
    Stereo(PathBuf),
}

impl Inputs {
    pub fn recordings(&self, how: How) -> Result<Recordings> {
        match self {
            Inputs::One { side, file } => Recordings::one(*side, file, how),
            Inputs::Two { left, right } => Recordings::two(left, right, how),
            Inputs::Stereo(both) => Recordings::stereo(both, how),
        }
    }

    /// What the page says of a bench's recording.
    fn about(&self, side: Side, model: &Path) -> About {
        match self {
            Inputs::One { side: its, .. } if *its != side => About::nothing(),
            _ if self.named(side) == Path::new(STANDARD_INPUT) => About::stream(STANDARD_INPUT, model),
            _ => About::file(self.named(side), model),
        }
    }

    /// All files, standard input among them.
    fn all(&self) -> Vec<&Path> {
        match self {
            Inputs::One { file, .. } => vec![file],
            Inputs::Two { left, right } => vec![left, right],
            Inputs::Stereo(both) => vec![both],
        }
    }

    /// What each recording is called.
    pub fn names(&self) -> Vec<&Path> {
        self.all().into_iter().map(called).collect()
    }

    /// What a bench's recording is called.
    pub fn named(&self, side: Side) -> &Path {
        match (self, side) {
            (Inputs::Two { right, .. }, Side::Right) => called(right),
            (Inputs::One { file, .. } | Inputs::Stereo(file) | Inputs::Two { left: file, .. }, _) => called(file),
        }
    }

    /// Whether one of them can't be read again.
    fn come_once(&self) -> bool {
        self.all().into_iter().any(|file| !file.is_file())
    }

    /// Whether both benches are recorded.
    pub fn are_both(&self) -> bool {
        !matches!(self, Inputs::One { .. })
    }
}

fn called(file: &Path) -> &Path {
    match file == Path::new("-") {
        true => Path::new(STANDARD_INPUT),
        false => file,
    }
}

/// What was cleaned.
pub struct Report {
    pub benches: [Summary; 2],
    /// What the model is called that was used.
    pub model: PathBuf,
    /// What of it is missing: one error for each bench or recording that ended before its time.
    pub lost: Vec<Error>,
    /// What was not as it should be, if nothing is lost by it.
    pub notes: Vec<String>,
}

/// Whether a file stands where a recording is written.
fn is_in_the_way(file: &Path, job: &Job) -> bool {
    let (Ok(file), Ok(out)) = (file.canonicalize(), job.out.canonicalize()) else { return false };
    let names = Side::BOTH.map(|side| job.place(side));
    names.iter().filter_map(|name| name.file_name()).any(|name| file == out.join(name))
}

/// A model that the library takes.
pub struct Model {
    pub bytes: Vec<u8>,
    pub name: PathBuf,
    /// Why it is not the model that was named.
    pub note: Option<String>,
}

impl Model {
    fn house(note: Option<String>) -> Model {
        Model { bytes: HOUSE.into(), name: HOUSE_NAME.into(), note }
    }

    fn in_place_of(refused: &Error) -> Model {
        Model::house(Some(format!("{refused}; the house model is used instead")))
    }
}

/// The model of a job. With `--or-house`, a named model that is refused gives way to the house model. Which of the two
/// is used, the library says.
pub fn model_of_job(job: &Job) -> Result<Model> {
    let Some(path) = &job.model else { return Ok(Model::house(None)) };
    let trial = match import::read_model(path) {
        // a text whose layers the writer refuses
        Err(error) if job.or_house && error.refusal().is_some() => return Ok(Model::in_place_of(&error)),
        trial => trial?,
    };
    match Recorder::new(job.way).open(Side::Left, &trial).at(path) {
        Err(error) if job.or_house && tuppence::model_choose(&trial, HOUSE) == 1 => Ok(Model::in_place_of(&error)),
        opened => opened.map(|()| Model { bytes: trial, name: path.clone(), note: None }),
    }
}

/// A bench that had to end, and when.
fn ended(side: Side, sample: u64, why: impl Into<Reason>) -> Lost {
    let at = format!("{}, at {:.2} s", side.name(), sample as f64 / f64::from(RATE));
    Lost::of(side, Error::Wrong(why.into()).within(at))
}

/// The benches that the library refused.
pub fn refused(benches: [Option<Refused>; 2]) -> impl Iterator<Item = Lost> {
    let told = |(side, bench): (Side, Option<Refused>)| bench.map(|at| ended(side, at.sample, at.refusal));
    Side::BOTH.into_iter().zip(benches).filter_map(told)
}

/// Runs a job. What ends one bench leaves the other as it is; what was cleaned till then is kept, and told. Where
/// nothing was cleaned, nothing is written.
pub fn clean(job: &Job) -> Result<Report> {
    signals::listen();
    let model = model_of_job(job)?;
    if let Some(file) = job.inputs.all().into_iter().find(|file| is_in_the_way(file, job)) {
        return Err(Error::undone("this would be written over; name another folder with --out").at(file));
    }
    let mut notes = mix::check(&job.inputs, job.anyway)?;
    notes.extend(model.note);
    let (out, prefix, once) = (&*job.out, &*job.prefix, job.inputs.come_once());
    let mut files = Files::new(&Place { out, prefix, more: &[], force: job.force, once, csv: job.csv })?;
    let mut recordings = job.inputs.recordings(job.how)?;
    Side::BOTH.into_iter().for_each(|side| files.about(side, job.inputs.about(side, &model.name)));
    let length = recordings.length();
    let is_raw = job.how.raw && matches!(job.inputs, Inputs::Stereo(_));
    let mut apart = Apart::new(&mut recordings, job.inputs.are_both(), job.anyway).in_turns(is_raw);
    let mut watched = Watched::new(&mut files, length, job.quiet);
    let outcome = run(&mut apart, [&model.bytes; 2], job.way, &mut watched, |_| ());
    drop(watched);
    notes.extend(apart.found(job.inputs.named(Side::Left))?);
    notes.extend(recordings.notes());
    let benches = match outcome {
        Ok(benches) => benches,
        Err(why) => return Err(files.give_up(why)),
    };
    let lost: Vec<Lost> = recordings.lost().into_iter().chain(refused(benches)).collect();
    lost.iter().for_each(|lost| lost.sides.iter().for_each(|side| files.fault(*side, &lost.why.to_string())));
    let lost = lost.into_iter().map(|lost| lost.why).collect();
    if files.is_empty() {
        return Err(nothing(lost));
    }
    Ok(Report { benches: files.keep(None)?, model: model.name, lost, notes })
}

/// Why nothing is written.
pub fn nothing(mut lost: Vec<Error>) -> Error {
    let Some(last) = lost.pop() else { return Error::undone("no samples came: nothing is written") };
    lost.push(last.reworded(|why| format!("{why}; nothing is written")));
    Error::Several(lost)
}

#[cfg(test)]
mod tests {
    use super::*;
    use crate::telling::refusal::Refusal;

    fn told(lost: impl Iterator<Item = Lost>) -> Vec<(Vec<Side>, String, Option<Refusal>)> {
        lost.map(|lost| (lost.sides, lost.why.to_string(), lost.why.refusal())).collect()
    }

    /// What ended a bench is said of that bench, and marks its page.
    #[test]
    fn each_bench_has_its_own_end() {
        let at = |number: u32, sample: u64| Some(Refused { refusal: Refusal(number), sample });
        let why = |side: &str, time: &str, number: u32| format!("{side}, at {time} s: {}", Refusal(number));
        let [left, right] = [Side::Left, Side::Right];
        let only = |side: Side, text: String, number: u32| vec![(vec![side], text, Some(Refusal(number)))];
        assert_eq!(told(refused([at(8, 48_000), None])), only(left, why("left", "1.00", 8), 8));
        assert_eq!(told(refused([None, at(3, 24_000)])), only(right, why("right", "0.50", 3), 3));
        assert_eq!(told(refused([None, None])), []);
        let both = told(refused([at(8, 0), at(3, 0)]));
        assert_eq!([&both[0].0[..], &both[1].0], [[left], [right]]);
    }

    /// Each bench's page names its own recording, and so does the answer.
    #[test]
    fn each_bench_has_its_own_name() {
        let inputs = Inputs::Two { left: "dir/a.wav".into(), right: "dir/b.wav".into() };
        let about = Side::BOTH.map(|side| inputs.about(side, Path::new("m.rnn")).name);
        assert_eq!(about, ["a.wav", "b.wav"]);
        assert_eq!(Side::BOTH.map(|side| inputs.named(side)), ["dir/a.wav", "dir/b.wav"].map(Path::new));
        for one in Side::BOTH {
            let inputs = Inputs::One { side: one, file: "c.wav".into() };
            let absent = Side::BOTH.map(|side| inputs.about(side, Path::new("m.rnn")).absent);
            assert_eq!(absent, Side::BOTH.map(|side| side != one));
        }
    }
}
