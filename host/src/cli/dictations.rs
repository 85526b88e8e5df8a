//! `box clean --split`, from the words, told in words or as JSON as each dictation is closed.

use crate::cleaning::clean::{model_of_job, Job};
use crate::cleaning::day::{clean_in_dictations, Ended, Split};
use crate::cleaning::demo::HOUSE_NAME;
use crate::cleaning::recorder::Side;
use crate::cleaning::split::PAUSES;
use crate::cli::words::Given;
use crate::error::{Error, Result};
use crate::page::day::frames;
use crate::page::{length, tenths};
use crate::recording::day::{Closed, Tell};
use crate::recording::listed::Voice;
use crate::recording::times::read_moment;
use crate::telling::json::{rounded, Json};
use crate::telling::shown::{line_of, shown};
use std::path::{Path, PathBuf};

/// How the words ask for dictations; `None` if they don't.
pub fn split(given: &Given) -> Result<Option<Split>> {
    let Some(seconds) = given.word("--split") else {
        let only = ["--start", "--keep-before"].into_iter().find(|name| given.has(name));
        return only.map_or(Ok(None), |name| Err(given.wrong(format!("{name} is for --split"))));
    };
    if let Some(name) = ["--name", "--csv"].into_iter().find(|name| given.has(name)) {
        return Err(given.wrong(format!("{name} is not for --split: dictations are called by their times")));
    }
    let wanted = || {
        let [least, most] = PAUSES;
        given.wrong(format!(
            "--split {}: a number of seconds from {least} to {most} is wanted",
            shown(Path::new(&seconds))
        ))
    };
    let seconds = seconds.parse().ok().filter(|s: &f64| (PAUSES[0]..=PAUSES[1]).contains(s)).ok_or_else(wanted)?;
    let moment = |text: String| {
        let told = shown(Path::new(&text));
        read_moment(&text)
            .ok_or_else(|| given.wrong(format!("--start {told}: a time such as 2026-11-16T09:30:12 is wanted")))
    };
    let start = given.word("--start").map(moment).transpose()?;
    Ok(Some(Split { seconds, start, keep_before: given.has("--keep-before") }))
}

/// Where the voice is, in words.
fn voice_in_words(voice: Voice) -> String {
    match voice {
        Voice::From { first, last } => format!("voice from {} to {}", tenths(first), tenths(last)),
        Voice::None => "no voice".into(),
        Voice::Unknown => "voice not known".into(),
    }
}

/// A dictation in a line.
fn line(closed: &Closed) -> String {
    let Closed { told, summary, .. } = closed;
    let (side, frames) = (told.front.side.name(), frames(told.front.first, told.frames));
    let (long, voice) = (length(summary.seconds()), voice_in_words(closed.voice));
    line_of(&closed.place, format!("{side} side, {frames}, {long} long, {voice}; sealed"))
}

fn json(closed: &Closed, recording: &Path, model: &str) -> Json {
    let Closed { place, told, summary, voice, fault } = closed;
    let (first, last) = match voice {
        Voice::From { first, last } => (Some(rounded(*first, 5)), Some(rounded(*last, 5))),
        _ => (None, None),
    };
    Json::Object(vec![
        ("file", place.as_path().into()),
        ("recording", recording.into()),
        ("side", told.front.side.name().into()),
        ("began", told.front.began.into()),
        ("first", told.front.first.into()),
        ("seconds", rounded(summary.seconds(), 5).into()),
        ("frames", told.frames.into()),
        ("heard", told.heard.into()),
        ("voice", summary.voices.into()),
        ("first_voice", first.into()),
        ("last_voice", last.into()),
        ("gaps", summary.gaps.into()),
        ("clipped", summary.clipped.into()),
        ("peak", rounded(20.0 * (f64::from(summary.peak) / 32_768.0).log10(), 1).into()),
        ("noise_taken", summary.pauses.taken().map(|db| rounded(db, 1)).into()),
        ("model", model.into()),
        ("status", u32::from(if fault.is_some() { 2u8 } else { 0 }).into()),
        ("error", fault.as_deref().into()),
    ])
}

/// Tells of each dictation as it is closed: in a line, as JSON, or not at all.
fn teller(given: &Given, job: &Job) -> Tell {
    let names: [PathBuf; 2] = Side::BOTH.map(|side| job.inputs.named(side).to_owned());
    // the model that is used; with --or-house that may be another than the one that is named
    let model = model_of_job(job).map_or(HOUSE_NAME.into(), |model| shown(&model.name));
    match (given.has("--json"), job.quiet) {
        (true, _) => Box::new(move |closed| {
            crate::say!("{}", json(closed, &names[closed.told.front.side as usize], &model));
        }),
        (false, false) => Box::new(|closed| crate::say!("{}", line(closed))),
        (false, true) => Box::new(|_| ()),
    }
}

/// What could not be done, as JSON: an object for the folder.
fn failed(job: &Job, error: &Error) -> Json {
    let (status, error) = (u32::from(error.status()), error.to_string());
    let fields = [("file", Json::from(&*job.out)), ("side", Json::Null), ("status", status.into())];
    Json::Object(fields.into_iter().chain([("error", error.into())]).collect())
}

/// Runs a job in dictations, and gives what of it is missing.
pub fn run_dictations(given: &Given, job: &Job, split: &Split) -> Result<()> {
    let outcome = clean_in_dictations(job, split, teller(given, job));
    if !given.has("--json") {
        let Ended { lost, notes } = outcome?;
        notes.iter().filter(|_| !job.quiet).for_each(|note| crate::warn!("{note}"));
        return Error::several(lost);
    }
    match outcome {
        Ok(Ended { lost, .. }) => Error::reported(lost.iter().map(Error::status)),
        Err(error) => {
            crate::say!("{}", failed(job, &error));
            Err(Error::Reported(error.status()))
        }
    }
}
