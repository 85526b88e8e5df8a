//! The text form of rnnoise-nu (`.rnnn`), which ffmpeg's arnndn and the published collections of models use: its name
//! and version, and then a `.rnn`'s numbers in decimal, one behind the other, with any white space between them.

use super::header_fault;
use super::number::{count, is_space, shown_word, weight, whole_number};
use crate::error::{At, Error, Result};
use crate::models::layers::{first_array, lengths, Layers, Unwritten, LAYERS};

/// The words of a text, each with its line.
struct Words<'a> {
    rest: &'a [u8],
    line: usize,
}

impl<'a> Iterator for Words<'a> {
    type Item = (usize, &'a [u8]);

    fn next(&mut self) -> Option<(usize, &'a [u8])> {
        let from = self.rest.iter().position(|byte| !is_space(*byte))?;
        self.line += self.rest[..from].iter().filter(|byte| **byte == b'\n').count();
        let rest = &self.rest[from..];
        let to = rest.iter().position(|byte| is_space(*byte)).unwrap_or(rest.len());
        self.rest = &rest[to..];
        Some((self.line, &rest[..to]))
    }
}

/// What stands in front of the numbers.
fn version(words: &mut Words) -> Result<()> {
    const FIRST: [&str; 4] = ["rnnoise-nu", "model", "file", "version"];
    if FIRST.iter().any(|word| words.next().map(|(_, text)| text) != Some(word.as_bytes())) {
        return Err(Error::undone("it does not begin with `rnnoise-nu model file version 1`"));
    }
    match words.next() {
        Some((_, number)) if whole_number(number) == Ok(1) => Ok(()),
        Some((_, number)) => {
            Err(Error::undone(format!("version {} of rnnoise-nu's form; version 1 is read", shown_word(number))))
        }
        None => Err(Error::undone("it ends before its version")),
    }
}

/// A layer's inputs, neurons and activation.
fn layer_header(words: &mut Words, layer: usize, layers: &mut Layers) -> Result<()> {
    let (name, mut told, mut at) = (LAYERS[layer].0, Vec::new(), 0);
    for (k, what) in ["inputs", "neurons", "activation"].into_iter().enumerate() {
        let (line, word) = words.next().ok_or_else(|| Error::undone(format!("it ends before the {what} of {name}")))?;
        layers.shapes[3 * layer + k] = count(word).within(format!("line {line}: {name}, {what}"))?;
        told.push(word);
        at = line;
    }
    header_fault(layers, [told[0], told[1], told[2]]).within(format!("line {at}"))
}

/// The numbers of one array, fewer where the text ends before.
fn array(words: &mut Words, name: &str, length: usize) -> Result<Vec<u8>> {
    let number = |(k, (line, word)): (usize, (usize, &[u8]))| {
        weight(word).within(format!("line {line}: {name}, number {} of {length}", k + 1))
    };
    words.take(length).enumerate().map(number).collect()
}

pub fn layers_in_rnnn(text: &[u8]) -> Result<Layers> {
    let (mut words, mut layers) = (Words { rest: text, line: 1 }, Layers::default());
    version(&mut words)?;
    for (layer, (name, arrays)) in LAYERS.iter().enumerate() {
        layer_header(&mut words, layer, &mut layers)?;
        let lengths = lengths(layer, layers.shapes[3 * layer], layers.shapes[3 * layer + 1]);
        for ((array_name, length), place) in arrays.iter().zip(lengths).zip(first_array(layer)..) {
            let name = format!("{name}.{array_name}");
            layers.arrays[place] = array(&mut words, &name, length)?;
            let there = layers.arrays[place].len();
            if there < length {
                let refused = layers.fault();
                let Unwritten { number, layer } = refused;
                let what = format!("{there} of {length} numbers are there");
                let why = format!("it ends within {name}: {what} (refusal {number}, layer {layer})");
                return Err(refused.error(why));
            }
        }
    }
    match words.next() {
        None => Ok(layers),
        Some((line, word)) => {
            let why = format!("line {line}: {} follows the last number of vad_output.bias", shown_word(word));
            Err(Error::undone(why))
        }
    }
}
