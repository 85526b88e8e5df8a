//! The proved denoiser for Rust programs.
//!
//! [`Bench`] is all that most programs need. It cleans what one microphone records, as nnnoiseless does:
//!
//! ```
//! # let house = concat!(env!("CARGO_MANIFEST_DIR"), "/../../host/model/house.rnn");
//! let model = std::fs::read(house)?;
//! let mut bench = tuppence::Bench::open(0, &model)?;
//! let recorded = [0.0f32; 1_000]; // 16-bit values as floats, 48 kHz, 1 to 4,096 at a time
//! let cleaned = bench.take(&recorded)?; // the frames that these samples complete: two of 480
//! assert_eq!(cleaned.samples.len(), 2 * tuppence::FRAME);
//! # Ok::<(), Box<dyn std::error::Error>>(())
//! ```
//!
//! Below it is one safe function for each `tuppence_…` function of the C surface, over lent slices. Each answers for
//! any arguments: most return 0, or the number of a refusal that leaves every lent buffer unchanged ([`Refusal`]).
//!
//! ```
//! # let house = concat!(env!("CARGO_MANIFEST_DIR"), "/../../host/model/house.rnn");
//! # let model = std::fs::read(house)?;
//! use tuppence::{FRAMES, FRAME, RECORD, STORE};
//! let (mut store, mut record) = (vec![0.0f32; STORE], [0u32; RECORD]); // docs/STORE.md
//! assert_eq!(tuppence::open_crate(&mut record, &mut store, 0, &model), 0); // bench 0 of 16
//! let (sound, mut out, mut answers) = ([0.0f32; 1_000], [0.0f32; FRAMES * FRAME], [0.0f32; 3 * FRAMES]);
//! assert_eq!(tuppence::take(&mut record, &mut store, 0, &sound, &model, &mut out, &mut answers), 0);
//! # Ok::<(), Box<dyn std::error::Error>>(())
//! ```

mod bench;
mod refusal;
mod sizes;

pub use bench::{Answer, Bench, Block, Fed, Format, Taken};
pub use refusal::Refusal;
pub use sizes::*;

macro_rules! surface {
    (@ $symbol:ident, $name:ident, $result:ty, [$($c:ty,)*] [$($a:ident: $r:ty,)*] [$($v:expr,)*]) => {
        #[doc = concat!("`", stringify!($symbol), "` of the C surface; bindings/c/tuppence.h says what it does.")]
        pub fn $name($($a: $r),*) -> $result {
            extern "C" {
                fn $symbol($(_: $c),*) -> $result;
            }
            // SAFETY: the archive has this function with these parameters, each slice's pointer and length belong
            // together, and nothing is asked of the arguments' values.
            unsafe { $symbol($($v),*) }
        }
    };
    (@ $s:ident, $n:ident, $o:ty, [$($c:ty,)*] [$($p:tt)*] [$($v:tt)*] $a:ident: &mut [$t:ty], $($rest:tt)*) => {
        surface!(@ $s, $n, $o, [$($c,)* *mut $t, usize,] [$($p)* $a: &mut [$t],]
            [$($v)* $a.as_mut_ptr(), $a.len(),] $($rest)*);
    };
    (@ $s:ident, $n:ident, $o:ty, [$($c:ty,)*] [$($p:tt)*] [$($v:tt)*] $a:ident: &[$t:ty], $($rest:tt)*) => {
        surface!(@ $s, $n, $o, [$($c,)* *const $t, usize,] [$($p)* $a: &[$t],]
            [$($v)* $a.as_ptr(), $a.len(),] $($rest)*);
    };
    (@ $s:ident, $n:ident, $o:ty, [$($c:ty,)*] [$($p:tt)*] [$($v:tt)*] $a:ident: $t:ty, $($rest:tt)*) => {
        surface!(@ $s, $n, $o, [$($c,)* $t,] [$($p)* $a: $t,] [$($v)* $a,] $($rest)*);
    };
    ($($symbol:ident as $name:ident($($parameters:tt)*) -> $result:ty;)*) => {
        $(surface!(@ $symbol, $name, $result, [] [] [] $($parameters)*,);)*
    };
}

include!("functions.rs");
