
// ---- our probe

pub mod probe {
    use std::borrow::Cow;

    pub use super::{Activation, DenseLayer, GruLayer, RnnModel, RnnState};

    fn lent(bytes: &[u8]) -> Cow<'static, [i8]> {
        Cow::Owned(super::to_i8(bytes).to_owned())
    }

    /// A dense layer of these bytes.
    pub fn dense_layer(weights: &[u8], bias: &[u8], activation: Activation) -> DenseLayer {
        let nb_neurons = bias.len();
        DenseLayer {
            bias: lent(bias),
            input_weights: lent(weights),
            nb_inputs: weights.len() / nb_neurons,
            nb_neurons,
            activation,
        }
    }

    /// A GRU layer of these bytes.
    pub fn gru_layer(weights: &[u8], recurrent: &[u8], bias: &[u8], activation: Activation) -> GruLayer {
        let nb_neurons = bias.len() / 3;
        GruLayer {
            bias: lent(bias),
            input_weights: lent(weights),
            recurrent_weights: lent(recurrent),
            nb_inputs: weights.len() / bias.len(),
            nb_neurons,
            activation,
        }
    }

    pub fn dense(layer: &DenseLayer, output: &mut [f32], input: &[f32]) {
        layer.compute(output, input)
    }

    pub fn gru(layer: &GruLayer, state: &mut [f32], input: &[f32]) {
        layer.compute(state, input)
    }

    /// `SubMatrix::mul_add`.
    pub fn mul_add(data: &[u8], stride: usize, offset: usize, output: &mut [f32], input: &[f32]) {
        super::SubMatrix { data: super::to_i8(data), stride, offset }.mul_add(output, input)
    }

    /// A layer as the text read it.
    pub struct Layer<'a> {
        pub inputs: usize,
        pub neurons: usize,
        pub activation: u8,
        pub weights: &'a [i8],
        pub recurrent: &'a [i8],
        pub bias: &'a [i8],
    }

    /// The six layers as the text read them.
    pub fn layers(model: &RnnModel) -> [Layer<'_>; 6] {
        fn dense(layer: &DenseLayer) -> Layer<'_> {
            Layer {
                inputs: layer.nb_inputs,
                neurons: layer.nb_neurons,
                activation: layer.activation as u8,
                weights: &layer.input_weights,
                recurrent: &[],
                bias: &layer.bias,
            }
        }
        fn gru(layer: &GruLayer) -> Layer<'_> {
            Layer {
                inputs: layer.nb_inputs,
                neurons: layer.nb_neurons,
                activation: layer.activation as u8,
                weights: &layer.input_weights,
                recurrent: &layer.recurrent_weights,
                bias: &layer.bias,
            }
        }
        [
            dense(&model.input_dense),
            gru(&model.vad_gru),
            gru(&model.noise_gru),
            gru(&model.denoise_gru),
            dense(&model.denoise_output),
            dense(&model.vad_output),
        ]
    }

    /// The states of vad_gru, noise_gru and denoise_gru.
    pub fn states<'a>(state: &'a mut RnnState<'_>) -> [&'a mut [f32]; 3] {
        [
            &mut state.vad_gru_state,
            &mut state.noise_gru_state,
            &mut state.denoise_gru_state,
        ]
    }

    /// A state for this model, all zeros.
    pub fn state(model: &RnnModel) -> RnnState<'_> {
        RnnState::new(Cow::Borrowed(model))
    }

    /// The model exchanged, the states kept.
    pub fn exchange(state: &mut RnnState<'static>, model: RnnModel) {
        state.model = Cow::Owned(model)
    }
}
