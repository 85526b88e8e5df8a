//! A stand-in for the crate of this name: what the text uses of it. Bin 0 is real: its imaginary part stays +0.0. Both
//! transforms come from the feed.

/// Complex numbers, in the order of operations of the crate `num_complex`.
pub mod num_complex {
    use std::ops::{AddAssign, Mul};

    /// A complex number.
    #[derive(Clone, Copy, Debug, Default, PartialEq)]
    pub struct Complex32 {
        /// The real part.
        pub re: f32,
        /// The imaginary part.
        pub im: f32,
    }

    impl Mul<&f32> for &Complex32 {
        type Output = Complex32;

        fn mul(self, by: &f32) -> Complex32 {
            Complex32 { re: self.re * by, im: self.im * by }
        }
    }

    impl AddAssign for Complex32 {
        fn add_assign(&mut self, other: Complex32) {
            self.re += other.re;
            self.im += other.im;
        }
    }
}

/// Transforms whose size is known when they run.
pub mod dyn_size {
    /// Of real numbers.
    pub mod realfft {
        use crate::num_complex::Complex32;
        use std::ops::{Deref, MulAssign};

        /// A spectrum: bin 0, which is real, and the bins above it.
        #[derive(Clone)]
        pub struct DynRealDft<T> {
            bins: Vec<Complex32>,
            length: usize,
            of: std::marker::PhantomData<T>,
        }

        impl DynRealDft<f32> {
            /// A spectrum by its bins, of a signal of that length.
            pub fn new(offset: f32, bins: &[Complex32], length: usize) -> Self {
                assert_eq!(bins.len(), length / 2);
                let mut all = vec![Complex32 { re: offset, im: 0.0 }];
                all.extend_from_slice(bins);
                DynRealDft { bins: all, length, of: std::marker::PhantomData }
            }

            /// Bin 0.
            pub fn get_offset(&self) -> &f32 {
                &self.bins[0].re
            }

            /// Bin 0, to be changed.
            pub fn get_offset_mut(&mut self) -> &mut f32 {
                &mut self.bins[0].re
            }

            /// The bins above it.
            pub fn get_frequency_bins(&self) -> &[Complex32] {
                &self.bins[1..]
            }

            /// The bins above it, to be changed.
            pub fn get_frequency_bins_mut(&mut self) -> &mut [Complex32] {
                &mut self.bins[1..]
            }

            /// The spectrum as one list: bin 0, then re and im of each bin above it.
            pub fn write(&self, numbers: &mut [f32]) {
                assert_eq!(numbers.len(), self.length + 1);
                numbers[0] = self.bins[0].re;
                for (to, bin) in numbers[1..].chunks_exact_mut(2).zip(&self.bins[1..]) {
                    to[0] = bin.re;
                    to[1] = bin.im;
                }
            }

            /// The spectrum that [`DynRealDft::write`] wrote.
            pub fn read(&mut self, numbers: &[f32]) {
                assert_eq!(numbers.len(), self.length + 1);
                self.bins[0].re = numbers[0];
                for (bin, from) in self.bins[1..].iter_mut().zip(numbers[1..].chunks_exact(2)) {
                    bin.re = from[0];
                    bin.im = from[1];
                }
            }

            /// The inverse transform, from the feed.
            pub fn real_ifft_using(&self, output: &mut [f32]) {
                let mut numbers = [0.0; feed::SPECTRUM];
                self.write(&mut numbers);
                feed::backward(&numbers, output);
            }
        }

        impl Deref for DynRealDft<f32> {
            type Target = [Complex32];

            fn deref(&self) -> &[Complex32] {
                &self.bins
            }
        }

        impl MulAssign<f32> for DynRealDft<f32> {
            fn mul_assign(&mut self, by: f32) {
                *self.get_offset_mut() *= by;
                for bin in self.get_frequency_bins_mut() {
                    *bin = &*bin * &by;
                }
            }
        }

        /// Number k multiplies bin k.
        impl MulAssign<&[f32]> for DynRealDft<f32> {
            fn mul_assign(&mut self, by: &[f32]) {
                assert_eq!(by.len(), self.bins.len());
                *self.get_offset_mut() *= by[0];
                for (bin, by) in self.get_frequency_bins_mut().iter_mut().zip(&by[1..]) {
                    *bin = &*bin * by;
                }
            }
        }
    }
}

/// What is used by method.
pub mod prelude {
    use crate::dyn_size::realfft::DynRealDft;

    /// The forward transform of real numbers.
    pub trait DynRealFft {
        /// The forward transform, from the feed.
        fn real_fft_using(&self, output: &mut DynRealDft<f32>);
    }

    impl DynRealFft for [f32] {
        fn real_fft_using(&self, output: &mut DynRealDft<f32>) {
            feed::forward(self, |numbers| output.read(numbers));
        }
    }
}
