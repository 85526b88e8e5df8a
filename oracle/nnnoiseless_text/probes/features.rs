
// ---- our probe

use feed::Log10 as _;

pub mod probe {
    use super::DenoiseFeatures;

    /// What a `DenoiseFeatures` remembers from frame to frame.
    pub struct Memory<'a> {
        pub input_mem: &'a mut [f32],
        pub synthesis_mem: &'a mut [f32],
        pub mem_hp_x: &'a mut [f32],
        pub cepstral_mem: &'a mut [[f32; crate::NB_BANDS]],
        pub mem_id: &'a mut usize,
    }

    pub fn memory(features: &mut DenoiseFeatures) -> Memory<'_> {
        Memory {
            input_mem: &mut features.input_mem,
            synthesis_mem: &mut features.synthesis_mem,
            mem_hp_x: &mut features.mem_hp_x,
            cepstral_mem: &mut features.cepstral_mem,
            mem_id: &mut features.mem_id,
        }
    }

    /// The window of `input_mem` at a lag, as `transform_input` hands it to the transform.
    pub fn window(features: &mut DenoiseFeatures, lag: usize) -> [f32; crate::WINDOW_SIZE] {
        let (mut x, mut ex) = (features.x.clone(), features.ex);
        super::transform_input(&features.input_mem, lag, &mut features.window_buf, &mut x, &mut ex);
        features.window_buf
    }

    pub fn apply_gain(features: &mut DenoiseFeatures, gain: &[f32; crate::FREQ_SIZE]) {
        features.apply_gain(gain)
    }

    pub fn frame_synthesis(features: &mut DenoiseFeatures, out: &mut [f32]) {
        features.frame_synthesis(out)
    }
}
