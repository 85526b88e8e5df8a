//! `box side` and `box mend`, from the words, told in words or as JSON.

use crate::cleaning::recorder::Side;
use crate::cli::words::Given;
use crate::error::{Error, Result};
use crate::recording::judge::Told;
use crate::recording::mend::{mend_file, Mended};
use crate::recording::rescue;
use crate::recording::unfinished::Kept;
use crate::telling::folder::look_into;
use crate::telling::json::{rounded, Json};
use crate::telling::side;
use std::path::Path;

type Fields = Vec<(&'static str, Json)>;

/// What the judge told of a recording; nothing of a file that it did not accept. An accepted recording has no gap.
fn told_fields(told: Option<&Told>) -> Fields {
    vec![
        ("side", told.map(|told| told.front.side.name()).into()),
        ("frames", told.map(|told| told.frames).into()),
        ("heard", told.map(|told| told.heard).into()),
        ("gaps", told.map(|_| 0u32).into()),
        ("first", told.map(|told| told.front.first).into()),
        ("began", told.map(|told| told.front.began).into()),
    ]
}

fn object(file: &Path, fields: Fields, wrong: Option<&Error>) -> Json {
    let status = ("status", wrong.map_or(0, |error| u32::from(error.status())).into());
    let (file, error) = (("file", file.into()), ("error", wrong.map(Error::to_string).into()));
    Json::Object([file].into_iter().chain(fields).chain([status, error]).collect())
}

/// An object for each file; and the highest status where one is bad.
fn side_as_json(given: &Given) -> Result<()> {
    let mut statuses = vec![];
    let mut tell = |path: &Path, looked: Result<Told>| {
        crate::say!("{}", object(path, told_fields(looked.as_ref().ok()), looked.as_ref().err()));
        statuses.extend(looked.err().map(|error| error.status()));
    };
    for path in &given.files {
        if path.is_dir() {
            let missing = look_into(path, &mut tell);
            missing.into_iter().for_each(|missing| tell(path, Err(missing)));
        } else {
            tell(path, side::told_of(path));
        }
    }
    Error::reported(statuses)
}

pub fn run_side(given: &Given) -> Result<()> {
    match given.has("--json") {
        true => side_as_json(given),
        false => side::tell_sides(&given.files),
    }
}

/// An object for each recording that was closed, and for each that could not be.
fn mend_folder_as_json(folder: &Path) -> Result<()> {
    let mended =
        rescue::mend_folder(folder).unwrap_or_else(|why| rescue::Mended { bad: vec![why], ..Default::default() });
    let fields = |told: Option<&Told>, kept: Option<&Kept>| {
        let seconds = |of: fn(&Kept) -> f64| Json::from(kept.map(|kept| rounded(of(kept), 5)));
        let more = [
            ("seconds", seconds(|kept| kept.seconds)),
            ("lost", seconds(|_| 0.0)),
            ("zeros", seconds(|kept| kept.zeros)),
            ("rewritten", kept.map(|kept| kept.rewritten).into()),
        ];
        told_fields(told).into_iter().chain(more).collect::<Fields>()
    };
    for closed in &mended.closed {
        crate::say!("{}", object(&closed.place, fields(Some(&closed.told), Some(&closed.kept)), None));
    }
    for why in &mended.bad {
        crate::say!("{}", object(folder, fields(None, None), Some(why)));
    }
    Error::reported(mended.bad.iter().map(Error::status))
}

fn run_mend_folder(given: &Given, folder: &Path) -> Result<()> {
    if given.has("--out") {
        return Err(given.wrong("--out is for a file; a folder is mended where it is"));
    }
    if given.has("--as") {
        return Err(given.wrong("--as is for a file; the sides of a folder's recordings stand in their seals"));
    }
    match given.has("--json") {
        true => mend_folder_as_json(folder),
        false => rescue::mend_folder(folder)?.tell(folder),
    }
}

pub fn run_mend(given: &Given) -> Result<()> {
    let file = &given.files[0];
    if file.is_dir() {
        return run_mend_folder(given, file);
    }
    let out = given.wanted("--out")?;
    let said = given.word("--as").map(|side| if side == "left" { Side::Left } else { Side::Right });
    let mended = mend_file(file, &out, said);
    if !given.has("--json") {
        mended?.tell(&out);
        return Ok(());
    }
    let (done, why) = (mended.as_ref().ok(), mended.as_ref().err());
    let of = |what: fn(&Mended) -> Json| done.map_or(Json::Null, what);
    let more = [
        ("recording", Json::from(&**file)),
        ("lost", of(|mended| mended.plan.lost.into())),
        ("rewritten", of(|mended| mended.plan.rewritten.into())),
        ("whole", of(|mended| mended.plan.whole.into())),
    ];
    let fields = told_fields(done.map(|mended| &mended.told)).into_iter().chain(more);
    crate::say!("{}", object(&out, fields.collect(), why));
    Error::reported(why.map(Error::status))
}
