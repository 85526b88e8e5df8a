//! A model's six layers, loose: their counts, activations and arrays. The library reads them from a model file, and
//! writes them as one.

use crate::error::{Error, Reason};
use crate::telling::refusal::Refusal;

/// A layer's name, and its arrays in the order of the file.
pub const LAYERS: [(&str, &[&str]); 6] = [
    ("input_dense", &["weights", "bias"]),
    ("vad_gru", &["weights", "recurrent", "bias"]),
    ("noise_gru", &["weights", "recurrent", "bias"]),
    ("denoise_gru", &["weights", "recurrent", "bias"]),
    ("denoise_output", &["weights", "bias"]),
    ("vad_output", &["weights", "bias"]),
];

/// The largest file that reads.
pub const LARGEST: usize = 157_285;

/// The lengths of a layer's arrays, in the order of the file, where its counts are at most 127.
pub fn lengths(layer: usize, inputs: u32, neurons: u32) -> Vec<usize> {
    let (i, n) = (inputs as usize, neurons as usize);
    match LAYERS[layer].1.len() {
        3 => vec![3 * i * n, 3 * n * n, 3 * n],
        _ => vec![i * n, n],
    }
}

/// The place of a layer's first array among the fifteen.
pub fn first_array(layer: usize) -> usize {
    LAYERS[..layer].iter().map(|(_, arrays)| arrays.len()).sum()
}

/// The number and the layer of the writer's refusal.
#[derive(Clone, Copy, Debug, PartialEq)]
pub struct Unwritten {
    pub number: u32,
    pub layer: usize,
}

impl Unwritten {
    /// The error in these words, with the refusal's number.
    pub fn error(self, text: String) -> Error {
        Error::Undone(Reason { text, refusal: Some(Refusal::of_model(self.number, self.layer as u32)) })
    }
}

#[derive(Clone, Debug, Default, PartialEq)]
pub struct Layers {
    /// Inputs, neurons and activation of each layer in turn.
    pub shapes: [u32; 18],
    /// The arrays' signed bytes.
    pub arrays: [Vec<u8>; 15],
}

impl Layers {
    /// Of a model that the library reads.
    pub fn of(model: &[u8]) -> Result<Layers, Refusal> {
        let mut numbers = [0; 30];
        let refused = tuppence::model(&mut numbers, model);
        if refused != 0 {
            return Err(Refusal::of_model(refused % 65_536, refused / 65_536));
        }
        let mut layers = Layers::default();
        for (layer, header) in numbers.chunks_exact(5).enumerate() {
            layers.shapes[3 * layer..][..3].copy_from_slice(&header[..3]);
            let mut at = header[3] as usize + 3;
            let lengths = lengths(layer, header[0], header[1]);
            for (array, length) in layers.arrays[first_array(layer)..].iter_mut().zip(lengths) {
                *array = model[at..at + length].to_vec();
                at += length;
            }
        }
        Ok(layers)
    }

    /// Their file, by the proved writer.
    pub fn file(&self) -> Result<Vec<u8>, Unwritten> {
        let mut file = vec![0; LARGEST];
        self.written_to(&mut file)?;
        file.truncate(self.shapes.len() + self.arrays.iter().map(Vec::len).sum::<usize>());
        Ok(file)
    }

    /// What the writer says while some layers are not known yet: these have no counts and no arrays. Of layers that it
    /// has no fault to find with it says 24, since it is lent no room.
    pub fn fault(&self) -> Unwritten {
        self.written_to(&mut []).expect_err("there is no room for a file")
    }

    fn written_to(&self, file: &mut [u8]) -> Result<(), Unwritten> {
        let [w0, b0, w1, r1, b1, w2, r2, b2, w3, r3, b3, w4, b4, w5, b5] = &self.arrays;
        match tuppence::write_model(file, &self.shapes, w0, b0, w1, r1, b1, w2, r2, b2, w3, r3, b3, w4, b4, w5, b5) {
            0 => Ok(()),
            refused => Err(Unwritten { number: refused % 65_536, layer: refused as usize / 65_536 }),
        }
    }
}
