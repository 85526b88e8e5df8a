//! Why the box does not read a recording, and what its owner can do about it.

use crate::error::Error;
use crate::reading::form::Converter;
use crate::reading::source::STANDARD_INPUT;
use crate::reading::wav::Fault;
use crate::telling::shown::quoted;
use std::path::Path;

/// A command that records what the box reads.
const RECORD: &str = "`arecord -f S16_LE -c 2 -r 48000 -t wav` records what the box reads";

fn is_stream(name: &Path) -> bool {
    name == Path::new(STANDARD_INPUT)
}

/// What makes a file of this one that the box reads.
fn converted(name: &Path, converter: Converter) -> String {
    match is_stream(name) {
        true => RECORD.into(),
        false => format!("`{}` makes a file that the box reads", converter.command(&quoted(name))),
    }
}

/// A recording that is no WAV file, or has samples that the box does not read.
pub fn of_fault(name: &Path, fault: Fault) -> Error {
    let hint = match &fault {
        Fault::Form(form) => form.converter().map(|converter| converted(name, converter)),
        Fault::Format { tag: 0x50 | 0x55, .. } => Some(converted(name, Converter::Ffmpeg)),
        Fault::Format { .. } => Some(converted(name, Converter::Sox)),
        Fault::Channels(3..=64) if !is_stream(name) => {
            Some(format!("`sox {} NEW.wav remix 1 2` keeps the first two", quoted(name)))
        }
        _ => None,
    };
    let hinted = |why: &str| hint.as_ref().map_or(why.into(), |hint| format!("{why}; {hint}"));
    Error::from(fault).reworded(hinted).at(name)
}

/// A recording of another sample rate.
pub fn of_rate(name: &Path, rate: u32) -> Error {
    let hint = converted(name, Converter::Sox);
    Error::undone(format!("it has {rate} samples a second; the box reads 48,000; {hint}")).at(name)
}

/// A recording of two channels that was given as one bench's, or of one channel that was given as both.
pub fn of_channels(name: &Path, channels: usize) -> Error {
    Error::undone(match (channels, is_stream(name)) {
        (1, false) => {
            let file = quoted(name);
            format!("it has one channel; `--left {file}` or `--right {file}` takes it as one bench's recording")
        }
        (1, true) => "it has one channel; `--left -` or `--right -` takes it as one bench's recording".into(),
        (_, false) => {
            format!("it has two channels; `--both {}` takes them as the left and the right bench", quoted(name))
        }
        (_, true) => "it has two channels; `box clean -` takes them as the left and the right bench".into(),
    })
    .at(name)
}
