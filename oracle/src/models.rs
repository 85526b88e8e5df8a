//! Model files: of any shape that reads, and damaged ones.

use crate::reader;
use crate::rng::Rng;

/// The neurons of input_dense, vad_gru, noise_gru and denoise_gru.
pub type Shape = [usize; 4];

/// The usual shape: 87,521 bytes.
pub const USUAL: Shape = [24, 24, 48, 96];
/// The shape of the largest model that reads: 157,285 bytes.
pub const LARGEST: Shape = [84, 1, 84, 127];
/// The shape of the smallest: 392 bytes.
pub const SMALLEST: Shape = [1, 1, 1, 1];

/// A layer's inputs, neurons and activation.
type Header = [u8; 3];

/// A shape that reads: mostly small.
pub fn shape(rng: &mut Rng) -> Shape {
    match rng.below(400) {
        0 => LARGEST,
        1 => USUAL,
        2 => [1, 84, 1, 127],
        3..=12 => {
            // no layer may have more than 127 inputs, 42 of which are the features
            let vad = 1 + rng.below(84);
            [1 + rng.below(85 - vad), vad, 1 + rng.below(85 - vad), 1 + rng.below(127)]
        }
        13..=20 => SMALLEST,
        _ => std::array::from_fn(|_| 1 + rng.below(7)),
    }
}

/// The six headers of a shape, with any activations.
fn headers(rng: &mut Rng, [dense, vad, noise, denoise]: Shape) -> [Header; 6] {
    let counts =
        [(42, dense), (dense, vad), (42 + dense + vad, noise), (42 + vad + noise, denoise), (denoise, 22), (vad, 1)];
    counts.map(|(inputs, neurons)| [inputs as u8, neurons as u8, rng.below(3) as u8])
}

/// Headers with arrays as long as they say, and where each header stands.
fn assemble(rng: &mut Rng, headers: &[Header; 6]) -> (Vec<u8>, [usize; 6]) {
    let mut file = Vec::new();
    let kind = rng.below(8);
    let places = std::array::from_fn(|layer| {
        let place = file.len();
        let [inputs, neurons, _] = headers[layer];
        let count = |n: u8| if n < 128 { n as usize } else { 0 };
        let length = reader::arrays(layer, count(inputs), count(neurons)).iter().sum();
        file.extend(headers[layer]);
        file.extend((0..length).map(|_| match kind {
            0 => 0,
            1 => rng.pick(&[0, 1, 127, 128, 255]),
            2 => rng.below(9).wrapping_sub(4) as u8,
            _ => rng.bits() as u8,
        }));
        place
    });
    (file, places)
}

/// A good model of this shape.
pub fn of_shape(rng: &mut Rng, shape: Shape) -> Vec<u8> {
    let headers = headers(rng, shape);
    assemble(rng, &headers).0
}

/// A good model.
pub fn good(rng: &mut Rng) -> Vec<u8> {
    let shape = shape(rng);
    of_shape(rng, shape)
}

/// A file that may read or not.
pub fn any(rng: &mut Rng) -> Vec<u8> {
    let shape = shape(rng);
    let mut headers = headers(rng, shape);
    // a layer that does not fit its neighbours, its arrays as long as it says
    if rng.once_in(3) {
        let (layer, which) = (rng.below(6), rng.below(2));
        let byte = &mut headers[layer][which];
        *byte = match rng.below(4) {
            0 => byte.wrapping_add(1),
            1 => byte.wrapping_sub(1),
            2 => 0,
            _ => rng.below(9) as u8,
        };
    }
    // no neurons, and neighbours that agree: what the Rust accepts
    if rng.once_in(12) {
        let [a, b, c, d]: Shape = std::array::from_fn(|_| rng.below(3));
        headers = self::headers(rng, [a, b, c, d]);
    }
    let (mut file, places) = assemble(rng, &headers);
    for _ in 0..rng.pick(&[0, 0, 1, 1, 1, 2]) {
        damage(rng, &mut file, &places);
    }
    file
}

fn damage(rng: &mut Rng, file: &mut Vec<u8>, places: &[usize; 6]) {
    let header = rng.pick(places);
    match rng.below(8) {
        // a header's byte
        0..=2 => {
            let value = rng.pick(&[0, 1, 2, 3, 22, 42, 126, 127, 128, 129, 254, 255]);
            if let Some(byte) = file.get_mut(header + rng.below(3)) {
                *byte = value;
            }
        }
        // cut: around a header, near the end, anywhere
        3 => file.truncate((header + rng.below(5)).saturating_sub(1)),
        4 => file.truncate(file.len().saturating_sub(1 + rng.below(4))),
        5 => file.truncate(rng.below(file.len() + 1)),
        6 => {
            let more = 1 + rng.below(3);
            file.extend(rng.bytes(more));
        }
        // a byte anywhere
        _ => {
            let at = rng.below(file.len() + 1);
            if let Some(byte) = file.get_mut(at) {
                *byte = rng.bits() as u8;
            }
        }
    }
}
