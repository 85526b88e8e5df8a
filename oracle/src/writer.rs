//! Request 01 written out from its words: six layers' counts, activations and arrays in, the file's bytes out.

use crate::models;
use crate::reader::{self, is_gru, Refusal};
use crate::rng::Rng;
use crate::tally::{self, Tally, Value};
use crate::{values, Options};

/// Numbers at the edges of what a count, an activation and a byte can be.
const EDGES: [u32; 9] = [0, 1, 2, 3, 127, 128, 255, 1 << 31, u32::MAX];

/// The arrays as the surface names them.
const NAMES: [&str; 15] = ["w0", "b0", "w1", "r1", "b1", "w2", "r2", "b2", "w3", "r3", "b3", "w4", "b4", "w5", "b5"];

/// What a writer is lent.
#[derive(Clone)]
struct Given {
    shapes: Vec<u32>,
    arrays: [Vec<u8>; 15],
    out: Vec<u8>,
}

/// A layer's arrays among the fifteen: weights and bias, and recurrent weights between them in a GRU.
fn places(layer: usize) -> std::ops::Range<usize> {
    let first = [0, 2, 5, 8, 11, 13][layer];
    first..first + if is_gru(layer) { 3 } else { 2 }
}

/// The lengths of a layer's arrays by its counts, whatever these are.
fn lengths(layer: usize, inputs: u32, neurons: u32) -> Vec<u128> {
    let (i, n) = (inputs as u128, neurons as u128);
    if is_gru(layer) {
        vec![3 * i * n, 3 * n * n, 3 * n]
    } else {
        vec![i * n, n]
    }
}

/// The file, or the first refusal.
fn written(given: &Given) -> Result<Vec<u8>, Refusal> {
    let shape = |layer: usize| [0, 1, 2].map(|k| given.shapes[3 * layer + k]);
    let mut file = Vec::new();
    for layer in 0..6 {
        let [inputs, neurons, activation] = shape(layer);
        let arrays = &given.arrays[places(layer)];
        let wanted = lengths(layer, inputs, neurons);
        let number = match () {
            _ if inputs > 127 => 12,
            _ if neurons > 127 => 13,
            _ if activation > 2 => 14,
            _ if neurons == 0 => 15,
            _ if arrays.iter().zip(wanted).any(|(array, length)| array.len() as u128 != length) => 16,
            _ => 0,
        };
        if number != 0 {
            return Err(Refusal { number, layer: layer as u32 });
        }
        file.extend([inputs, neurons, activation].map(|n| n as u8));
        arrays.iter().for_each(|array| file.extend(array));
    }
    let (inputs, neurons) = (|layer| shape(layer)[0], |layer| shape(layer)[1]);
    let number = match () {
        _ if inputs(0) != 42 || neurons(4) != 22 || neurons(5) != 1 => 18,
        _ if neurons(0) != inputs(1) || neurons(1) != inputs(5) => 19,
        _ if 42 + neurons(0) + neurons(1) != inputs(2) => 20,
        _ if 42 + neurons(1) + neurons(2) != inputs(3) => 21,
        _ if neurons(3) != inputs(4) => 22,
        _ if given.out.len() < file.len() => 24,
        _ => return Ok(file),
    };
    Err(Refusal { number, layer: 6 })
}

fn one(tally: &mut Tally, given: &Given) {
    let Given { shapes, arrays, out } = given;
    let [w0, b0, w1, r1, b1, w2, r2, b2, w3, r3, b3, w4, b4, w5, b5] = arrays;
    let mut lent = vec![("shapes", Value::from(shapes)), ("out", Value::from(out))];
    lent.extend(NAMES.into_iter().zip(arrays.iter().map(Value::from)));
    let lent = tally::Given::new(&lent);
    let (mut mine, mut theirs) = (out.clone(), out.clone());
    let number = tuppence::write_model(&mut mine, shapes, w0, b0, w1, r1, b1, w2, r2, b2, w3, r3, b3, w4, b4, w5, b5);
    let want = match (shapes.len() == 18).then(|| written(given)) {
        None => 5,
        Some(Err(refusal)) => refusal.number + 65_536 * refusal.layer,
        Some(Ok(file)) => {
            theirs[..file.len()].copy_from_slice(&file);
            read_back(given, &mine[..file.len()]);
            0
        }
    };
    tally.judge("write_model", lent, values![number, mine], values![want, theirs]);
}

/// What was written reads, through the proved reader and through the table's, as the layers that were given.
fn read_back(given: &Given, file: &[u8]) {
    let mut numbers = [0; 30];
    assert_eq!(tuppence::model(&mut numbers, file), 0, "what was written does not read: {file:?}");
    for (layer, numbers) in numbers.chunks_exact(5).enumerate() {
        assert_eq!(numbers[..3], given.shapes[3 * layer..3 * layer + 3]);
        let (offset, length) = (numbers[3] as usize, numbers[4] as usize);
        assert_eq!(file[offset + 3..offset + length], given.arrays[places(layer)].concat());
    }
    assert!(reader::read(file, true).is_ok());
}

/// A file taken apart by the table's reader.
fn taken_apart(file: &[u8]) -> Given {
    let layers = reader::read(file, true).expect("a good model");
    let mut given = Given { shapes: vec![], arrays: Default::default(), out: vec![] };
    for (layer, header) in layers.iter().enumerate() {
        given.shapes.extend([header.inputs as u32, header.neurons as u32, header.activation as u32]);
        let mut at = header.offset + 3;
        for (place, length) in places(layer).zip(lengths(layer, header.inputs as u32, header.neurons as u32)) {
            given.arrays[place] = file[at..at + length as usize].to_vec();
            at += length as usize;
        }
    }
    given
}

/// Arrays as long as the counts say, where the counts are a file's.
fn fit(rng: &mut Rng, given: &mut Given) {
    for layer in 0..6 {
        let [inputs, neurons] = [given.shapes[3 * layer], given.shapes[3 * layer + 1]];
        if inputs < 128 && neurons < 128 {
            for (place, length) in places(layer).zip(lengths(layer, inputs, neurons)) {
                given.arrays[place] = rng.bytes(length as usize);
            }
        }
    }
}

fn size(given: &Given) -> usize {
    18 + given.arrays.iter().map(Vec::len).sum::<usize>()
}

fn damage(rng: &mut Rng, given: &mut Given) {
    match rng.below(6) {
        0 => {
            let place = rng.below(18);
            given.shapes[place] = rng.pick(&EDGES);
        }
        // a layer that does not fit its neighbours, its arrays as long as it says
        1 | 2 => {
            let place = 3 * rng.below(6) + rng.below(2);
            given.shapes[place] = match rng.below(4) {
                0 => given.shapes[place].wrapping_add(1),
                1 => given.shapes[place].saturating_sub(1),
                2 => rng.below(9) as u32,
                _ => rng.pick(&EDGES),
            };
            fit(rng, given);
        }
        3 => {
            let array = &mut given.arrays[rng.below(15)];
            if rng.once_in(2) {
                array.push(0);
            } else {
                array.pop();
            }
        }
        4 => {
            let (one, other) = (rng.below(15), rng.below(15));
            given.arrays.swap(one, other);
        }
        _ => given.shapes.truncate(rng.near(18)),
    }
}

/// Every number at every edge, every array one short and one long, every buffer around the file's length.
fn edges(tally: &mut Tally, rng: &mut Rng, whole: &Given) {
    for place in 0..18 {
        for edge in EDGES {
            let mut given = whole.clone();
            given.shapes[place] = edge;
            one(tally, &given);
            fit(rng, &mut given);
            one(tally, &given);
        }
    }
    for place in 0..15 {
        let mut given = whole.clone();
        given.arrays[place].push(0);
        one(tally, &given);
        given.arrays[place].truncate(whole.arrays[place].len() - 1);
        one(tally, &given);
    }
    for buffer in [0, size(whole) - 1, size(whole), size(whole) + 1, size(whole) + 1_000] {
        one(tally, &Given { out: rng.bytes(buffer), ..whole.clone() });
    }
}

pub fn compare(options: &Options) -> Tally {
    let mut tally = Tally::new("writer");
    let rng = &mut Rng::new(options.seed);
    for shape in [models::SMALLEST, models::USUAL, models::LARGEST] {
        let file = models::of_shape(rng, shape);
        let mut whole = taken_apart(&file);
        whole.out = rng.bytes(file.len());
        edges(&mut tally, rng, &whole);
        one(&mut tally, &whole);
    }
    for _ in 0..options.calls(20_000) {
        let file = models::good(rng);
        let mut given = taken_apart(&file);
        let damages = rng.pick(&[0, 0, 1, 1, 1, 2]);
        if damages == 0 {
            assert_eq!(written(&Given { out: vec![0; file.len()], ..given.clone() }).as_ref(), Ok(&file));
        }
        for _ in 0..damages {
            if given.shapes.len() == 18 {
                damage(rng, &mut given);
            }
        }
        let length = match rng.below(8) {
            0 => size(&given) - 1,
            1 => rng.below(size(&given) + 1),
            2..=4 => size(&given) + rng.below(40),
            _ => size(&given),
        };
        given.out = rng.bytes(length);
        one(&mut tally, &given);
    }
    tally
}
