//! rnn.rs, `from_bytes`: which files read, where the layers and their arrays stand, and which of two files is taken.

use crate::models::{self, LARGEST, SMALLEST, USUAL};
use crate::reader::{self, Refusal};
use crate::rng::Rng;
use crate::tally::{Given, Tally};
use crate::{named, values, Options};
use nnnoiseless_text::{probe::rnn, RnnModel};

pub fn compare(options: &Options) -> Tally {
    let mut tally = Tally::new("model");
    let rng = &mut Rng::new(options.seed);
    let t = &mut tally;
    for (shape, length) in [(SMALLEST, 392), (USUAL, 87_521), (LARGEST, 157_285)] {
        let mut file = models::of_shape(rng, shape);
        assert_eq!(file.len(), length);
        one(t, rng, &file);
        one(t, rng, &file[..length - 1]);
        file.push(0);
        one(t, rng, &file);
    }
    for file in [&[][..], &[128, 0, 0], &[42, 0, 0], &[42, 1, 0]] {
        one(t, rng, file);
    }
    let mut last = vec![];
    for _ in 0..options.calls(20_000) {
        let file = models::any(rng);
        one(t, rng, &file);
        array(t, rng, &file);
        choose(t, &file, &last);
        last = file;
    }
    tally
}

/// The bytes of an array as the Rust has it, in a file that both read. Of a layer or an array that there is not: none.
fn in_the_rust(file: &[u8], layer: u32, array: u32) -> Vec<i8> {
    let model = RnnModel::from_bytes(file).unwrap();
    let layers = rnn::layers(&model);
    match (layers.get(layer as usize), array) {
        (Some(layer), 0) => layer.weights.to_vec(),
        (Some(layer), 1) => layer.recurrent.to_vec(),
        (Some(layer), 2) => layer.bias.to_vec(),
        _ => vec![],
    }
}

/// Where an array is: the bytes there are those that the Rust has.
fn array(tally: &mut Tally, rng: &mut Rng, file: &[u8]) {
    let place: Vec<u32> = (0..rng.near(2)).map(|_| rng.bits() as u32).collect();
    let (layer, array) = (rng.below(7) as u32, rng.below(4) as u32);
    let bytes = file.to_vec();
    let named = named![place, bytes, layer, array];
    let given = Given::new(named);
    let mut ours = place.clone();
    let number = tuppence::model_array(&mut ours, &bytes, layer, array);
    let (want, wanted) = match agreed(file) {
        _ if place.len() != 2 => (5, place.clone()),
        Err(Refusal { number, layer }) => (number + 65_536 * layer, place.clone()),
        Ok(layers) => (0, placed(&layers, layer, array)),
    };
    if want == 0 {
        let [at, length] = [wanted[0] as usize, wanted[1] as usize];
        let there: Vec<i8> = file[at..at + length].iter().map(|byte| *byte as i8).collect();
        assert_eq!(there, in_the_rust(file, layer, array), "layer {layer}, array {array} is elsewhere in {file:?}");
    }
    tally.judge("model_array", given, values![number, ours], values![want, wanted]);
}

/// The place and the length of an array by the table: behind the header and the arrays before it.
fn placed(layers: &[reader::Layer; 6], layer: u32, array: u32) -> Vec<u32> {
    let Some(read) = layers.get(layer as usize) else { return vec![0, 0] };
    let lengths = reader::arrays(layer as usize, read.inputs, read.neurons);
    let before: usize = lengths.iter().take(array as usize).sum();
    let length = lengths.get(array as usize).copied().unwrap_or(0);
    vec![(read.offset + 3 + before) as u32, length as u32]
}

/// Which of two files is taken: the first that the Rust reads, 15 apart.
fn choose(tally: &mut Tally, trial: &[u8], house: &[u8]) {
    let (trial, house) = (trial.to_vec(), house.to_vec());
    let named = named![trial, house];
    let given = Given::new(named);
    let number = tuppence::model_choose(&trial, &house);
    let want = [&trial, &house].iter().position(|file| agreed(file).is_ok()).unwrap_or(2) as u32;
    tally.judge("model_choose", given, values![number], values![want]);
}

fn one(tally: &mut Tally, rng: &mut Rng, file: &[u8]) {
    let numbers: Vec<u32> = (0..rng.near(30)).map(|_| rng.bits() as u32).collect();
    let bytes = file.to_vec();
    let given = named![numbers, bytes];
    let given = Given::new(given);
    let mut ours = numbers.clone();
    let number = tuppence::model(&mut ours, &bytes);
    let (mut wanted, mut want) = (numbers.clone(), 5);
    if numbers.len() == 30 {
        match agreed(file) {
            Ok(layers) => {
                wanted = layers
                    .iter()
                    .flat_map(|l| [l.inputs, l.neurons, l.activation as usize, l.offset, l.length].map(|n| n as u32))
                    .collect();
                want = 0;
            }
            Err(Refusal { number, layer }) => want = number + 65_536 * layer,
        }
    }
    tally.judge("model", given, values![number, ours], values![want, wanted]);
}

/// The table's answer, once it is seen that the Rust accepts the same files, 15 apart, and finds the same layers in
/// them.
pub fn agreed(file: &[u8]) -> Result<[reader::Layer; 6], Refusal> {
    let answer = reader::read(file, true);
    let without = reader::read(file, false);
    assert!(answer == without || matches!(answer, Err(Refusal { number: 15, .. })));
    let text = RnnModel::from_bytes(file);
    assert_eq!(text.is_some(), without.is_ok(), "the Rust reads this file otherwise: {file:?}");
    if let (Ok(layers), Some(model)) = (without, text) {
        for (k, (layer, text)) in layers.iter().zip(rnn::layers(&model)).enumerate() {
            let [weights, recurrent, bias] = reader::arrays(k, layer.inputs, layer.neurons);
            let mut rest = file[layer.offset + 3..layer.offset + layer.length].iter().map(|b| *b as i8);
            let mut next = |n| rest.by_ref().take(n).collect::<Vec<i8>>();
            assert_eq!((layer.inputs, layer.neurons), (text.inputs, text.neurons));
            assert_eq!(layer.activation, text.activation);
            assert_eq!(next(weights), text.weights);
            assert_eq!(next(recurrent), text.recurrent);
            assert_eq!(next(bias), text.bias);
        }
    }
    answer
}
