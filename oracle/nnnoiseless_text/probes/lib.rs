
// ---- our probe

/// What the text keeps to itself.
pub mod probe {
    pub use super::denoise::probe as denoise;
    pub use super::features::probe as features;
    pub use super::pitch::probe as pitch;
    pub use super::rnn::probe as rnn;
    pub use super::util::probe as util;

    /// lib.rs
    pub mod bands {
        pub use easyfft::num_complex::Complex32 as Complex;

        pub fn compute_band_corr(out: &mut [f32], x: &[Complex], p: &[Complex]) {
            crate::compute_band_corr(out, x, p)
        }

        pub fn interp_band_gain(out: &mut [f32], band_e: &[f32]) {
            crate::interp_band_gain(out, band_e)
        }

        pub fn dct(out: &mut [f32], x: &[f32]) {
            crate::dct(out, x)
        }

        pub fn apply_window(output: &mut [f32], input: &[f32]) {
            crate::apply_window(output, input)
        }

        pub fn apply_window_in_place(xs: &mut [f32]) {
            crate::apply_window_in_place(xs)
        }

        pub fn window() -> &'static [f32] {
            &crate::common().window
        }

        pub fn dct_table() -> &'static [f32] {
            &crate::common().dct_table
        }

        pub fn wnorm() -> f32 {
            crate::common().wnorm
        }
    }
}
