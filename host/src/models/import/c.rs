//! RNNoise's `rnn_data.c`: arrays `rnn_weight NAME[n] = {...}`, and layers `DenseLayer NAME = {...}` and `GRULayer NAME
//! = {...}` that name their arrays, the bias first, and then have inputs, neurons and activation. Their order in the
//! file is any. All else is passed over: comments, directives and what stands between `#if` and `#endif`, other
//! declarations.

use super::header_fault;
use super::number::{count, shown_word, weight};
use super::tokens::{is_word, tokens, Token};
use crate::error::{At, Error, Result};
use crate::models::layers::{first_array, lengths, Layers, LAYERS};
use std::collections::BTreeMap;

/// Whether it is the C text of RNNoise 0.2 or later.
pub fn is_newer(text: &[u8]) -> bool {
    [&b"WeightArray"[..], b"LinearLayer", b"rnnoise_data.h"]
        .iter()
        .any(|word| text.windows(word.len()).any(|part| part == *word))
}

/// A layer as it is declared: its kind, and what stands between its braces.
struct Declared {
    line: usize,
    kind: String,
    parts: Vec<String>,
}

/// Tokens on their way to arrays and layers, by their names.
struct Reader<'a> {
    tokens: std::iter::Peekable<std::vec::IntoIter<Token<'a>>>,
    arrays: BTreeMap<String, Vec<u8>>,
    layers: BTreeMap<String, Declared>,
}

fn owned(text: &[u8]) -> String {
    String::from_utf8_lossy(text).into_owned()
}

impl<'a> Reader<'a> {
    /// Takes the next token where it is this one.
    fn takes(&mut self, text: &[u8]) -> bool {
        self.tokens.next_if(|token| token.text == text).is_some()
    }

    fn wants(&mut self, text: &[u8], of: &str) -> Result<()> {
        match self.tokens.next() {
            Some(token) if token.text == text => Ok(()),
            Some(Token { text: other, line }) => {
                let why = format!("line {line}: {of}: {} is wanted, not {}", shown_word(text), shown_word(other));
                Err(Error::undone(why))
            }
            None => Err(Error::undone(format!("it ends within {of}"))),
        }
    }

    /// The next token that is a name.
    fn name(&mut self) -> Option<Token<'a>> {
        self.tokens.next_if(|token| is_word(token.text[0]) && !token.text[0].is_ascii_digit())
    }

    /// A word, with its sign where it has one.
    fn signed(&mut self, of: &str) -> Result<(usize, Vec<u8>)> {
        let ends = || Error::undone(format!("it ends within {of}"));
        let Token { text, line } = self.tokens.next().ok_or_else(ends)?;
        match text {
            b"-" | b"+" => Ok((line, [text, self.tokens.next().ok_or_else(ends)?.text].concat())),
            _ => Ok((line, text.to_vec())),
        }
    }

    /// What stands between braces, one by one.
    fn braced(&mut self, of: &str, mut each: impl FnMut(usize, &[u8]) -> Result<()>) -> Result<()> {
        self.wants(b"{", of)?;
        while !self.takes(b"}") {
            let (line, word) = self.signed(of)?;
            each(line, &word)?;
            if !self.takes(b",") {
                return self.wants(b"}", of);
            }
        }
        Ok(())
    }

    /// `rnn_weight` is read; where an array's name and length follow, the array. One that is declared, and has no
    /// numbers, is passed over.
    fn array(&mut self) -> Result<()> {
        let Some(Token { text, line }) = self.name() else { return Ok(()) };
        let name = owned(text);
        if !self.takes(b"[") {
            return Ok(());
        }
        let (_, length) = self.signed(&name)?;
        self.wants(b"]", &name)?;
        if !self.takes(b"=") {
            return Ok(());
        }
        let mut numbers = Vec::new();
        self.braced(&name, |line, word| {
            let at = format!("line {line}: {name}, number {}", numbers.len() + 1);
            let number = decimal(word).and_then(weight).within(at)?;
            numbers.push(number);
            Ok(())
        })?;
        if length != numbers.len().to_string().as_bytes() {
            let why = format!("line {line}: {name}[{}] has {} numbers", length.escape_ascii(), numbers.len());
            return Err(Error::undone(why));
        }
        insert_new(&mut self.arrays, name, numbers, line)
    }

    /// The kind of a layer is read; where its name and its initialiser follow, the layer.
    fn layer(&mut self, kind: &[u8]) -> Result<()> {
        let Some(Token { text, line }) = self.name() else { return Ok(()) };
        let name = owned(text);
        if !self.takes(b"=") {
            return Ok(());
        }
        let mut parts = Vec::new();
        self.braced(&name, |_, word| {
            parts.push(owned(word));
            Ok(())
        })?;
        insert_new(&mut self.layers, name, Declared { line, kind: owned(kind), parts }, line)
    }

    fn read(&mut self) -> Result<()> {
        while let Some(Token { text, .. }) = self.tokens.next() {
            match text {
                b"rnn_weight" => self.array()?,
                b"DenseLayer" | b"GRULayer" => self.layer(text)?,
                _ => {}
            }
        }
        Ok(())
    }
}

fn insert_new<T>(to: &mut BTreeMap<String, T>, name: String, what: T, line: usize) -> Result<()> {
    if to.contains_key(&name) {
        return Err(Error::undone(format!("line {line}: {name} is there for the second time")));
    }
    to.insert(name, what);
    Ok(())
}

/// To C a number that begins with 0 is not decimal.
fn decimal(word: &[u8]) -> Result<&[u8]> {
    match word.strip_prefix(b"-").or(word.strip_prefix(b"+")).unwrap_or(word) {
        [b'0', b'0'..=b'9', ..] => Err(Error::undone(format!("{} is no decimal number in C", shown_word(word)))),
        _ => Ok(word),
    }
}

/// An activation by its name in RNNoise, or by its number.
fn activation(word: &str) -> u32 {
    match word {
        "ACTIVATION_TANH" => 0,
        "ACTIVATION_SIGMOID" => 1,
        "ACTIVATION_RELU" => 2,
        _ => count(word.as_bytes()).unwrap_or(u32::MAX),
    }
}

/// A layer's numbers and arrays, from its declaration.
fn fill(layers: &mut Layers, layer: usize, of: &Declared, arrays: &BTreeMap<String, Vec<u8>>) -> Result<()> {
    let (name, names) = LAYERS[layer];
    // the parts in the order of C, and the places of the arrays among a `.rnn`'s
    let (kind, parts, order): (_, _, &[usize]) = match names.len() {
        3 => ("GRULayer", "bias, weights, recurrent weights, inputs, neurons, activation", &[2, 0, 1]),
        _ => ("DenseLayer", "bias, weights, inputs, neurons, activation", &[1, 0]),
    };
    if of.kind != kind || of.parts.len() != order.len() + 3 {
        let has = of.parts.len();
        let why = format!("{name}: a {kind} of {parts} is wanted; this is a {} of {has} parts", of.kind);
        return Err(Error::undone(why));
    }
    let (array_names, header) = of.parts.split_at(order.len());
    for (k, word) in header[..2].iter().enumerate() {
        let number = decimal(word.as_bytes()).and_then(count).within(name)?;
        layers.shapes[3 * layer + k] = number;
    }
    layers.shapes[3 * layer + 2] = activation(&header[2]);
    header_fault(layers, [&header[0], &header[1], &header[2]].map(|word| word.as_bytes()))?;
    let wanted = lengths(layer, layers.shapes[3 * layer], layers.shapes[3 * layer + 1]);
    for (array_name, place) in array_names.iter().zip(order) {
        let none =
            || Error::undone(format!("{name}: there is no array {} of rnn_weight", shown_word(array_name.as_bytes())));
        let array = arrays.get(array_name).ok_or_else(none)?;
        if array.len() != wanted[*place] {
            let refused = layers.fault();
            let what = format!("{array_name} has {} numbers, {} are wanted", array.len(), wanted[*place]);
            let why = format!("{name}: {what} (refusal {}, layer {})", refused.number, refused.layer);
            return Err(refused.error(why));
        }
        layers.arrays[first_array(layer) + place].clone_from(array);
    }
    Ok(())
}

pub fn layers_in_c(text: &[u8]) -> Result<Layers> {
    let tokens = tokens(text)?.into_iter().peekable();
    let mut reader = Reader { tokens, arrays: BTreeMap::new(), layers: BTreeMap::new() };
    reader.read()?;
    let mut layers = Layers::default();
    for (layer, (name, _)) in LAYERS.iter().enumerate() {
        let none = || Error::undone(format!("there is no layer {name} (what is between #if and #endif is not read)"));
        let declared = reader.layers.get(*name).ok_or_else(none)?;
        fill(&mut layers, layer, declared, &reader.arrays).within(format!("line {}", declared.line))?;
    }
    Ok(layers)
}
