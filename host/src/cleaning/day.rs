//! `box clean --split`: both benches' recordings in dictations, cleaned as they come.

use crate::cleaning::clean::{model_of_job, nothing, refused, Inputs, Job};
use crate::cleaning::mix::{self, Apart};
use crate::cleaning::recorder::Side;
use crate::cleaning::run::run;
use crate::error::{Error, Result};
use crate::reading::source::{Lost, Recordings};
use crate::recording::day::{day_given_up, Day, Plan, Tell};
use crate::recording::times::{since_1970, Times};
use crate::sys::signals;
use crate::telling::progress::Watched;
use crate::RATE;
use std::fs;

/// How a job is cut into dictations.
#[derive(Clone, Copy, Debug, PartialEq)]
pub struct Split {
    /// A dictation is over after this many seconds without a voice.
    pub seconds: f64,
    /// When the first sample was recorded, if somebody says it, in seconds since 1970.
    pub start: Option<u64>,
    /// Whether each recording is kept as it was before cleaning, too.
    pub keep_before: bool,
}

/// What is told at the end, when all dictations were told.
pub struct Ended {
    /// What of the recordings is missing.
    pub lost: Vec<Error>,
    /// What was not as it should be, if nothing is lost by it.
    pub notes: Vec<String>,
}

/// What tells the time of a bench's samples: what somebody says; of a file its last change less its length, since that
/// is when a recorder began it; of a stream the clock.
fn times(job: &Job, split: &Split, recordings: &Recordings, side: Side) -> Times {
    let by_file = || {
        let length = recordings.length_of(side)?;
        let changed = fs::metadata(job.inputs.named(side)).and_then(|file| file.modified()).ok()?;
        Some(since_1970(changed).saturating_sub(length.div_ceil(u64::from(RATE))))
    };
    split.start.or_else(by_file).map_or(Times::Clock, Times::From)
}

/// Runs a job in dictations. Each is told as soon as it is closed.
pub fn clean_in_dictations(job: &Job, split: &Split, tell: Tell) -> Result<Ended> {
    signals::listen();
    let model = model_of_job(job)?;
    let mut notes = mix::check(&job.inputs, job.anyway)?;
    notes.extend(model.note.clone());
    let (out, keep_before) = (&*job.out, split.keep_before);
    let mut day = Day::new(&Plan { out, split: split.seconds, keep_before, force: job.force }, tell)?;
    let mut recordings = job.inputs.recordings(job.how)?;
    day.set_times(Side::BOTH.map(|side| times(job, split, &recordings, side)));
    let length = recordings.length();
    let is_raw = job.how.raw && matches!(job.inputs, Inputs::Stereo(_));
    let mut apart = Apart::new(&mut recordings, job.inputs.are_both(), job.anyway).in_turns(is_raw);
    let mut watched = Watched::new(&mut day, length, job.quiet);
    let outcome = run(&mut apart, [&model.bytes; 2], job.way, &mut watched, |_| ());
    drop(watched);
    match apart.found(job.inputs.named(Side::Left)) {
        Ok(found) => notes.extend(found),
        Err(why) => {
            day.discard();
            return Err(why);
        }
    }
    notes.extend(recordings.notes());
    let benches = match outcome {
        Ok(benches) => benches,
        Err(why) => return Err(day.give_up(why)),
    };
    let lost: Vec<Lost> = recordings.lost().into_iter().chain(refused(benches)).collect();
    lost.iter().for_each(|lost| lost.sides.iter().for_each(|side| day.fault(*side, &lost.why.to_string())));
    let lost: Vec<Error> = lost.into_iter().map(|lost| lost.why).collect();
    match day.finish().map_err(|why| day_given_up(out, why))? {
        true => Ok(Ended { lost, notes }),
        false => Err(nothing(lost)),
    }
}
