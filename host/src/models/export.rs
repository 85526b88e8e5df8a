//! `box export`: a model in the text form of rnnoise-nu, so that ffmpeg's arnndn can run it. Behind each array ffmpeg
//! goes on to the end of the line, so that each stands on a line of its own.

use crate::error::{At, Result};
use crate::models::import;
use crate::models::layers::{first_array, Layers, LAYERS};
use crate::recording::put;
use std::path::Path;

pub fn rnnn(layers: &Layers) -> String {
    let line = |numbers: &[u8]| {
        let words: Vec<String> = numbers.iter().map(|byte| (*byte as i8).to_string()).collect();
        words.join(" ") + "\n"
    };
    let mut text = String::from("rnnoise-nu model file version 1\n");
    for (layer, (_, arrays)) in LAYERS.iter().enumerate() {
        let [inputs, neurons, activation] = [0, 1, 2].map(|k| layers.shapes[3 * layer + k]);
        text += &format!("{inputs} {neurons} {activation}\n");
        text.extend(layers.arrays[first_array(layer)..][..arrays.len()].iter().map(|array| line(array)));
    }
    text
}

/// Writes a model of any form as a `.rnnn`, and tells its length.
pub fn export(model: &Path, out: &Path, force: bool) -> Result<usize> {
    let layers = Layers::of(&import::read_model(model)?).at(model)?;
    let text = rnnn(&layers);
    put::put(out, text.as_bytes(), force)?;
    Ok(text.len())
}
