
// ---- our probe

pub mod probe {
    /// The text's own finder.
    #[derive(Clone)]
    pub struct PitchFinder(super::PitchFinder);

    impl PitchFinder {
        pub fn new() -> PitchFinder {
            PitchFinder(super::PitchFinder::new())
        }

        /// One that remembers this period and this gain.
        pub fn after(last_period: usize, last_gain: f32) -> PitchFinder {
            PitchFinder(super::PitchFinder { last_period, last_gain, ..super::PitchFinder::new() })
        }

        /// The period and the gain of 1,728 numbers.
        pub fn process(&mut self, input: &[f32]) -> (usize, f32) {
            self.0.process(input)
        }
    }

    pub fn inner_prod(xs: &[f32], ys: &[f32], n: usize) -> f32 {
        super::inner_prod(xs, ys, n)
    }

    pub fn lpc(lpc: &mut [f32], ac: &[f32]) {
        super::lpc(lpc, ac)
    }

    pub fn pitch_xcorr(xs: &[f32], ys: &[f32], xcorr: &mut [f32]) {
        super::pitch_xcorr(xs, ys, xcorr)
    }

    pub fn find_best_pitch(xcorr: &[f32], ys: &[f32], len: usize) -> (usize, usize) {
        super::find_best_pitch(xcorr, ys, len)
    }

    pub fn fir5_in_place(xs: &mut [f32], num: &[f32]) {
        super::fir5_in_place(xs, num)
    }

    pub fn celt_autocorr(x: &[f32], ac: &mut [f32]) {
        super::celt_autocorr(x, ac)
    }

    pub fn pitch_downsample(x: &[f32], x_lp: &mut [f32]) {
        super::pitch_downsample(x, x_lp)
    }
}
