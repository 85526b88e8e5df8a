//! The Rust text's own `process_frame`, with transforms that are worked out in f64, and the machine's logarithm.

use crate::transform::Transform;
use nnnoiseless_text::{feed, DenoiseState, RnnModel};

/// One bench by the text.
pub struct Reference(Box<DenoiseState<'static>>);

impl Reference {
    /// A bench with this model, if the text reads it.
    pub fn new(model: &[u8]) -> Option<Reference> {
        let (forward, inverse) = (Transform::default(), Transform::default());
        feed::install(feed::Functions {
            forward: Box::new(move |window, spectrum| forward.forward(window, spectrum)),
            inverse: Box::new(move |spectrum, window| inverse.inverse(spectrum, window)),
            log10: f32::log10,
        });
        RnnModel::from_bytes(model).map(|model| Reference(DenoiseState::from_model(model)))
    }

    /// The voice probability; the text has 0.0 for a silent frame.
    pub fn frame(&mut self, samples: &[f32], out: &mut [f32]) -> f32 {
        self.0.process_frame(out, samples)
    }
}
