//! The library's refusals, in words.

use crate::models::layers::LAYERS;
use std::fmt;

/// A refusal as the library returns it: its number, and for 7 the model's number and layer.
#[derive(Clone, Copy, Debug, PartialEq)]
pub struct Refusal(pub u32);

impl Refusal {
    /// A model's refusal with this number, in this layer.
    pub fn of_model(number: u32, layer: u32) -> Refusal {
        Refusal(7 + 256 * number + 65_536 * layer)
    }
}

/// What a call of the library returned: 0 is done.
pub fn done(number: u32) -> Result<(), Refusal> {
    match number {
        0 => Ok(()),
        _ => Err(Refusal(number)),
    }
}

pub fn of_model(number: u32) -> &'static str {
    match number {
        11 => "it ends within a layer's header",
        12 => "a layer's number of inputs is negative",
        13 => "a layer's number of neurons is negative",
        14 => "a layer's activation is not 0, 1 or 2",
        15 => "a layer has no neurons",
        16 => "it ends within a layer's weights",
        17 => "there are bytes after the last layer",
        18 => "it does not take 42 features to 22 gains and one voice",
        19 => "vad_gru does not fit input_dense and vad_output",
        20 => "noise_gru does not fit the layers before it",
        21 => "denoise_gru does not fit the layers before it",
        22 => "denoise_output does not fit denoise_gru",
        _ => "it can't be read",
    }
}

fn of_seal(number: u32) -> &'static str {
    match number {
        51 => "it is none",
        52 => "its own checksum does not fit it",
        _ => "it names neither the left nor the right side",
    }
}

/// What the judge says of a file, in a clerk's words.
fn of_recording(number: u32) -> &'static str {
    match number {
        61 => "not a sealed recording: another program saved it, or it was never sealed",
        62 => "it ends within its audio",
        63 => "its audio was changed, or the seal after it",
        64 => "the records of its frames are damaged or missing",
        65 => "the end of its records is damaged or missing",
        _ => "something was added after its end",
    }
}

impl fmt::Display for Refusal {
    fn fmt(&self, f: &mut fmt::Formatter) -> fmt::Result {
        let (number, of, layer) = (self.0 % 256, self.0 / 256 % 256, self.0 / 65_536);
        match number {
            7 => {
                write!(f, "the model is refused: {} (refusal {of}, layer {layer}", of_model(of))?;
                LAYERS.get(layer as usize).map_or(Ok(()), |(name, _)| write!(f, ", {name}"))?;
                write!(f, ")")
            }
            8 => write!(f, "the model's GRU counts are not those of the opening (refusal 8)"),
            37 => write!(f, "the file ends within its audio (refusal 37)"),
            51..=53 => write!(f, "its seal is damaged: {} (refusal {number})", of_seal(number)),
            61..=66 => {
                let then = if number == 61 { ". Ask for the file as the box wrote it" } else { "" };
                write!(f, "{}{then} (refusal {number})", of_recording(number))
            }
            _ => write!(f, "the library refused a call with {number}"),
        }
    }
}
