//! `box pack` and `box unpack`: a model file from a folder of loose arrays, and back. `layers.txt` has a line for each
//! layer:
//! its name, inputs, neurons and activation (0 tanh, 1 sigmoid, 2 relu). Each array is a file of signed bytes.

use crate::error::{At, Error, Result};
use crate::models::import;
use crate::models::layers::{first_array, lengths, Layers, Unwritten, LAYERS};
use crate::recording::folder::Folder;
use crate::recording::put;
use crate::telling::refusal::{self, Refusal};
use std::fs;
use std::path::Path;

/// The files of the fifteen arrays.
fn files() -> impl Iterator<Item = String> {
    LAYERS.iter().flat_map(|(layer, arrays)| arrays.iter().map(move |array| format!("{layer}.{array}")))
}

/// The eighteen numbers of `layers.txt`.
fn shapes(text: &str) -> Result<[u32; 18]> {
    let lines: Vec<&str> = text.lines().collect();
    if lines.len() != LAYERS.len() {
        return Err(Error::undone(format!("six lines are wanted, one for each layer; this has {}", lines.len())));
    }
    let mut shapes = [0; 18];
    for (k, (line, (name, _))) in lines.iter().zip(LAYERS).enumerate() {
        let wanted =
            || Error::undone(format!("line {}: `{name} INPUTS NEURONS ACTIVATION` is wanted, not `{line}`", k + 1));
        let words: Vec<&str> = line.split_whitespace().collect();
        if words.len() != 4 || words[0] != name {
            return Err(wanted());
        }
        for (number, word) in shapes[3 * k..].iter_mut().zip(&words[1..]) {
            *number = word.parse().map_err(|_| wanted())?;
        }
    }
    Ok(shapes)
}

/// A refusal of the writer, in words; that of a wrong length names the array.
fn why(refused: Unwritten, layers: &Layers) -> Error {
    let Unwritten { number, layer } = refused;
    let Some((name, names)) = LAYERS.get(layer) else {
        return refused.error(format!("{} (refusal {number})", refusal::of_model(number)));
    };
    let [inputs, neurons] = [0, 1].map(|k| layers.shapes[3 * layer + k]);
    let what = match number {
        12 => format!("{inputs} inputs are more than 127"),
        13 => format!("{neurons} neurons are more than 127"),
        16 => names
            .iter()
            .zip(&layers.arrays[first_array(layer)..])
            .zip(lengths(layer, inputs, neurons))
            .filter(|((_, array), length)| array.len() != *length)
            .map(|((array, bytes), length)| format!("{name}.{array} has {} bytes, {length} are wanted", bytes.len()))
            .collect::<Vec<_>>()
            .join("; "),
        _ => refusal::of_model(number).to_owned(),
    };
    refused.error(format!("{name}: {what} (refusal {number}, layer {layer})"))
}

/// Reads the folder, and writes the model whole or not at all.
pub fn pack(folder: &Path, out: &Path, force: bool) -> Result<usize> {
    let list = folder.join("layers.txt");
    let text = fs::read_to_string(&list).at(&list)?;
    let mut layers = Layers { shapes: shapes(&text).at(&list)?, ..Layers::default() };
    for (array, name) in layers.arrays.iter_mut().zip(files()) {
        let path = folder.join(name);
        *array = fs::read(&path).at(&path)?;
    }
    let file = layers.file().map_err(|refused| why(refused, &layers)).at(folder)?;
    put::put(out, &file, force)?;
    Ok(file.len())
}

/// The text and the arrays of a model, by their names.
fn loose(model: &[u8]) -> Result<Vec<(String, Vec<u8>)>, Refusal> {
    let Layers { shapes, arrays } = Layers::of(model)?;
    let lines = LAYERS.iter().zip(shapes.chunks_exact(3));
    let text: String = lines.map(|((name, _), s)| format!("{name} {} {} {}\n", s[0], s[1], s[2])).collect();
    Ok(files().zip(arrays).chain([("layers.txt".into(), text.into_bytes())]).collect())
}

/// Takes a model apart into a folder.
pub fn unpack(model: &Path, out: &Path, force: bool) -> Result<()> {
    let files = loose(&import::read_model(model)?).at(model)?;
    let mut folder = Folder::new(out, force)?;
    folder.claim(files.iter().map(|(name, _)| name))?;
    for (name, bytes) in &files {
        folder.write(name, bytes)?;
    }
    folder.keep()
}
