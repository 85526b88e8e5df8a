//! `box clean` and `box demo`, from the words, told in words or as JSON.

use crate::cleaning::clean::{self, Inputs, Job, Report};
use crate::cleaning::cleaned::Summary;
use crate::cleaning::demo::HOUSE_NAME;
use crate::cleaning::jobs;
use crate::cleaning::mix;
use crate::cleaning::recorder::{Side, Way};
use crate::cli::dictations;
use crate::cli::words::Given;
use crate::error::{Error, Result};
use crate::reading::source::{How, STANDARD_INPUT};
use crate::recording::folder::Folder;
use crate::sys::signals;
use crate::telling::json::{rounded, Json};
use crate::telling::names;
use crate::telling::progress::Counted;
use crate::telling::shown::{line_of, shown, steers};
use std::path::{Path, PathBuf};

/// The most recordings that are cleaned at a time.
const MOST_JOBS: usize = 256;

fn way(given: &Given) -> Way {
    match given.word("--lag").as_deref() {
        Some("own") => Way::Own,
        _ => Way::Nnnoiseless,
    }
}

/// The side that `--side` says.
fn asked_side(given: &Given) -> Option<Side> {
    given.word("--side").map(|side| if side == "left" { Side::Left } else { Side::Right })
}

/// The side of a file of a list: `--side`, and without it what its name says.
fn side_of(given: &Given, file: &Path) -> Result<Side> {
    let side = asked_side(given).or_else(|| Some(names::meant(file)?.0));
    side.ok_or_else(|| {
        given.wrong(line_of(file, "its name says neither left nor right; add --side left or --side right"))
    })
}

/// What stands in front of the names of what is written.
fn prefix(given: &Given) -> Result<String> {
    let Some(name) = given.word("--name") else { return Ok(String::new()) };
    // of unicode, and so short that what is put behind it fits too
    let is_plain = !name.chars().any(|c| c == '/' || c == char::REPLACEMENT_CHARACTER || steers(c));
    if !is_plain || name.starts_with('.') || name.len() > 200 {
        let name = shown(Path::new(&name));
        return Err(given.wrong(format!("--name {name}: a short name without / and control characters is wanted")));
    }
    Ok(name + "-")
}

fn job(given: &Given, inputs: Inputs, out: PathBuf) -> Result<Job> {
    let (model, quiet) = (given.path("--model"), given.has("-q"));
    let (force, anyway) = (given.has("--force"), given.has("--anyway"));
    let how = How { raw: given.has("--raw"), to_the_end: given.has("--to-the-end") };
    let (way, csv, prefix) = (way(given), given.has("--csv"), prefix(given)?);
    let split = dictations::split(given)?;
    let or_house = given.has("--or-house");
    if or_house && model.is_none() {
        return Err(given.wrong("--or-house is for a model that --model names"));
    }
    Ok(Job { inputs, model, or_house, way, quiet, force, anyway, how, csv, out, prefix, split })
}

/// Refuses `--raw` and `--channels` where they say nothing, or something else than the benches that are asked for.
fn look_at_raw(given: &Given, inputs: Option<&Inputs>) -> Result<()> {
    let is_stream = inputs.is_some_and(|inputs| inputs.names().contains(&Path::new(STANDARD_INPUT)));
    let is_stereo = matches!(inputs, Some(Inputs::Stereo(_)));
    match given.word("--channels").as_deref() {
        Some(_) if !given.has("--raw") => {
            Err(given.wrong("--channels is for --raw; a WAV file says its channels itself"))
        }
        _ if given.has("--raw") && !is_stream => {
            Err(given.wrong("--raw is for standard input: add -, or --left - or --right - for one bench"))
        }
        Some("1") if is_stereo => {
            Err(given.wrong("--channels 1 is one bench's recording: use --left - or --right - instead of -"))
        }
        Some("2") if !is_stereo => {
            Err(given.wrong("--channels 2 is a recording of both benches: use - instead of --left - or --right -"))
        }
        _ => Ok(()),
    }
}

/// What is named by options, or comes on standard input; `None` if it is named by a list of files.
fn inputs(given: &Given) -> Result<Option<Inputs>> {
    let named = |name: &str| given.path(name);
    let is_stream = |file: &PathBuf| file.as_os_str() == "-";
    let stream = given.files.iter().find(|file| is_stream(file));
    let inputs = match (named("--left"), named("--right"), named("--both")) {
        (None, None, None) => stream.map(|stream| Inputs::Stereo(stream.clone())),
        (Some(left), Some(right), None) if is_stream(&left) && is_stream(&right) => {
            return Err(given.wrong("standard input is one recording: - takes both benches as its channels"));
        }
        (Some(left), Some(right), None) => Some(Inputs::Two { left, right }),
        (Some(file), None, None) => Some(Inputs::One { side: Side::Left, file }),
        (None, Some(file), None) => Some(Inputs::One { side: Side::Right, file }),
        (None, None, Some(both)) => Some(Inputs::Stereo(both)),
        _ => return Err(given.wrong("--both names both benches, and another recording is named too")),
    };
    look_at_raw(given, inputs.as_ref())?;
    let alone = usize::from(!["--left", "--right", "--both"].iter().any(|name| given.has(name)) && stream.is_some());
    match (&inputs, given.files.get(alone)) {
        (Some(_), Some(more)) => Err(given.wrong(format!("{} is one recording too many", shown(more)))),
        (Some(_), None) if given.has("--side") => Err(given.wrong("--side is for files that no option names")),
        (None, None) => Err(given.wrong("no recording is named: --left, --right, --both, FILE or -")),
        _ => Ok(inputs),
    }
}

/// What is told of one recording as JSON.
struct Told<'a> {
    /// Where it was written; if it was not, the folder.
    file: &'a Path,
    recording: &'a Path,
    bench: Option<&'a Summary>,
    model: &'a str,
    notes: &'a [String],
    status: u8,
    error: Option<&'a str>,
}

fn recording_json(told: &Told) -> Json {
    let Told { file, recording, bench, .. } = *told;
    let number = |of: fn(&Summary) -> u64| Json::from(bench.map(of));
    let decibels = |of: fn(&Summary) -> Option<f64>| Json::from(bench.and_then(of).map(|db| rounded(db, 1)));
    let seconds = |of: fn(&Summary) -> Option<f64>| Json::from(bench.and_then(of).map(|s| rounded(s, 5)));
    Json::Object(vec![
        ("file", file.into()),
        ("recording", recording.into()),
        ("side", bench.map(|bench| bench.side.name()).into()),
        ("seconds", seconds(|bench| Some(bench.seconds()))),
        ("frames", number(|bench| bench.frames)),
        ("heard", number(|bench| bench.heard)),
        ("voice", number(|bench| bench.voices)),
        ("first_voice", seconds(Summary::voice_at)),
        ("gaps", number(|bench| bench.gaps)),
        ("clipped", number(|bench| bench.clipped)),
        ("peak", decibels(|bench| Some(20.0 * (f64::from(bench.peak) / 32_768.0).log10()))),
        ("noise_taken", decibels(|bench| bench.pauses.taken())),
        ("model", told.model.into()),
        ("notes", told.notes.into()),
        ("status", u32::from(told.status).into()),
        ("error", told.error.into()),
    ])
}

/// The benches that have a recording.
fn written(report: &Report) -> impl Iterator<Item = &Summary> {
    report.benches.iter().filter(|bench| bench.samples > 0)
}

/// An object for each recording that was written, and for each that was read if nothing came of it.
fn as_json(job: &Job, outcome: &Result<Report>) -> Vec<String> {
    let named = job.model.as_deref().unwrap_or(HOUSE_NAME.as_ref());
    let model = &shown(outcome.as_ref().map_or(named, |report| &report.model));
    match outcome {
        Ok(report) => {
            let asked = report.benches.iter().filter(|bench| !bench.about.absent);
            let json = asked.map(|bench| {
                let (recording, fault) = (job.inputs.named(bench.side), bench.about.fault.as_deref());
                let (place, status) = (job.place(bench.side), if fault.is_some() { 2 } else { 0 });
                let notes = &report.notes;
                recording_json(&match bench.samples {
                    0 => {
                        let error = fault.or(Some("no sound came"));
                        Told { file: &job.out, recording, bench: None, model, notes, status, error }
                    }
                    _ => Told { file: &place, recording, bench: Some(bench), model, notes, status, error: fault },
                })
            });
            json.map(|json| json.to_string()).collect()
        }
        Err(error) => {
            let (status, error) = (error.status(), &*error.to_string());
            let json = job.inputs.names().into_iter().map(|recording| {
                let (file, error) = (&*job.out, Some(error));
                recording_json(&Told { file, recording, bench: None, model, notes: &[], status, error })
            });
            json.map(|json| json.to_string()).collect()
        }
    }
}

/// What there is to tell of a job: lines, and what of it is missing.
struct Answer {
    /// For standard error.
    notes: Vec<String>,
    /// For standard output.
    lines: Vec<String>,
    missing: Result<()>,
    /// Whether something was cleaned.
    cleaned: bool,
}

impl Answer {
    fn tell(self) -> Result<()> {
        self.notes.iter().for_each(|note| crate::warn!("{note}"));
        self.lines.iter().for_each(|line| crate::say!("{line}"));
        self.missing
    }
}

/// Runs a job. `line` is what is said of a bench that was cleaned.
fn run_job(given: &Given, job: &Job, line: impl Fn(&Summary) -> String) -> Answer {
    if let Some(split) = &job.split {
        // each dictation is told as it is closed
        let missing = dictations::run_dictations(given, job, split);
        return Answer { notes: vec![], lines: vec![], cleaned: missing.is_ok(), missing };
    }
    let outcome = clean::clean(job);
    let (is_json, cleaned) = (given.has("--json"), outcome.is_ok());
    let silent = |error: Error| if is_json { Error::Reported(error.status()) } else { error };
    let (mut notes, mut lines) = (vec![], vec![]);
    if is_json {
        lines = as_json(job, &outcome);
    }
    let missing = outcome.map_err(silent).and_then(|report| {
        if !is_json && !given.has("-q") {
            lines = written(&report).map(line).collect();
            notes = report.notes;
        }
        Error::several(report.lost).map_err(silent)
    });
    Answer { notes, lines, missing, cleaned }
}

/// Tells that no model was named.
fn tell_house(given: &Given) {
    if !given.has("--model") && !given.has("--json") && !given.has("-q") {
        crate::say!("Cleaned with the house model, since --model names none.");
    }
}

/// Where the recording of a file of a list is written: a folder that is called like the file.
fn folder_of(out: &Path, file: &Path) -> PathBuf {
    out.join(file.file_stem().unwrap_or(file.as_os_str()))
}

/// Refuses two files of a list that would be written to one folder.
fn look_for_twins(given: &Given, out: &Path) -> Result<()> {
    for (place, file) in given.files.iter().enumerate() {
        let folder = folder_of(out, file);
        if let Some(twin) = given.files[..place].iter().find(|twin| folder_of(out, twin) == folder) {
            let [twin, file, folder] = [twin, file, &folder].map(|path| shown(path));
            let why = format!("{twin} and {file} would both be written to {folder}; clean them with different --out");
            return Err(given.wrong(why));
        }
    }
    Ok(())
}

/// How many recordings are cleaned at a time.
fn jobs(given: &Given) -> Result<usize> {
    let Some(word) = given.word("--jobs") else { return Ok(jobs::cores()) };
    match word.parse() {
        Ok(jobs @ 1..=MOST_JOBS) => Ok(jobs),
        _ => {
            let word = shown(Path::new(&word));
            Err(given.wrong(format!("--jobs {word}: a number from 1 to {MOST_JOBS} is wanted")))
        }
    }
}

/// Files of one bench each, every one into a folder of its own, and as many at a time as `--jobs` says. All names are
/// looked at before anything is written.
fn many(given: &Given, out: &Path) -> Result<()> {
    look_for_twins(given, out)?;
    // dictations are told while their recording goes on, so that one recording at a time is cut into them
    let most = if given.has("--split") { 1 } else { given.files.len() };
    let (at_a_time, mut all) = (jobs(given)?.min(most), vec![]);
    for file in &given.files {
        let inputs = Inputs::One { side: side_of(given, file)?, file: file.clone() };
        mix::check(&inputs, given.has("--anyway"))?;
        let job = job(given, inputs, folder_of(out, file))?;
        all.push((file, Job { quiet: job.quiet || at_a_time > 1, ..job }));
    }
    // the folder around those of the files: none of them takes it away from another, and it goes if it stays empty
    let _around = Folder::new(out, false);
    let (mut bad, mut cleaned) = (vec![], false);
    let mut line = Counted::new(all.len(), given.has("-q") || at_a_time == 1);
    let tell = |(file, answer): (PathBuf, Option<Answer>)| match answer {
        Some(answer) => {
            cleaned |= answer.cleaned;
            bad.extend(answer.tell().err());
        }
        None => bad.push(Error::wrong("stopped before it").at(&file)),
    };
    let work = |(file, job): &(&PathBuf, Job)| (file.to_path_buf(), one_of_many(given, file, job));
    jobs::in_order(at_a_time, &all, work, || line.one_more(), tell);
    if cleaned {
        tell_house(given);
    }
    Error::several(bad)
}

/// `None` if the end was asked for before this file's turn came.
fn one_of_many(given: &Given, file: &Path, job: &Job) -> Option<Answer> {
    let told = |bench: &Summary| {
        let (side, frames, place) = (bench.side.name(), bench.frames, shown(&job.place(bench.side)));
        line_of(file, format!("{side} side, {frames} frames, in {place}"))
    };
    (!signals::asked()).then(|| run_job(given, job, told))
}

/// Says how a stream without a header is read.
fn tell_raw(inputs: &Inputs) {
    let what = match inputs {
        Inputs::Stereo(_) => "two channels, left and right in turn",
        _ => "one channel",
    };
    crate::warn!(
        "Reading standard input as samples without a header: {what}, 48,000 a second, 16 bits, little end first."
    );
}

pub fn run_clean(given: &Given) -> Result<()> {
    let (inputs, out) = (inputs(given)?, given.wanted("--out")?);
    let Some(inputs) = inputs else { return many(given, &out) };
    if given.has("--jobs") {
        return Err(given.wrong("--jobs is for several files that no option names"));
    }
    if given.has("--raw") && !given.has("-q") && !given.has("--json") {
        tell_raw(&inputs);
    }
    let job = job(given, inputs, out)?;
    let answer = run_job(given, &job, |bench| format!("{}: {} frames", bench.side.name(), bench.frames));
    let cleaned = answer.cleaned;
    let missing = answer.tell();
    if cleaned {
        tell_house(given);
    }
    missing
}

pub fn run_demo(given: &Given) -> Result<()> {
    let dir = &given.files[0];
    crate::cleaning::demo::demo(dir, way(given), given.has("--force"), given.has("--csv"))?;
    let dir = shown(dir);
    crate::say!("Look at {dir}/index.html, and listen to {dir}/left-before.wav and {dir}/left.wav.");
    Ok(())
}
