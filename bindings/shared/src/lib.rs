//! `libtuppence.so`: the functions of bindings/c/tuppence.h, for callers that cannot promise good pointers.
//!
//! Each function checks its pointers, then puts the floating-point environment into its default state, calls the
//! proved function of the same name, and restores the environment. A call with a bad pointer is refused with a number
//! from 101 on, and writes nothing:
//!
//! | Number | Why |
//! |---|---|
//! | 101 | a pointer is NULL, and its length is not 0 |
//! | 102 | a pointer is not aligned as its type is |
//! | 103 | a slice is longer than memory can be |
//! | 104 | a slice that is written overlaps another one |
//!
//! NULL with length 0 is an empty slice. `tuppence_checksum` has no number for a refusal, because every number is a
//! checksum: it returns 0 for a slice that cannot be read.

mod environment;
mod lent;

use environment::DefaultEnvironment;
use lent::{check, pointer, pointer_mut, Lent};

/// What a function returns for a refusal. `tuppence_checksum` returns checksums alone.
macro_rules! refusal {
    (tuppence_checksum, $number:expr) => {{
        let _: u32 = $number;
        0
    }};
    ($symbol:ident, $number:expr) => {
        $number
    };
}

// One C function for each row of the list. A slice becomes a pointer and a length; `len` is a new name in each step.
macro_rules! surface {
    // no slice, so nothing to check
    (@ $symbol:ident, $result:ty, [$($a:ident: $c:ty,)*] [] [$($v:expr,)*]) => {
        #[no_mangle]
        pub extern "C" fn $symbol($($a: $c),*) -> $result {
            extern "C" {
                #[link_name = concat!("proved_", stringify!($symbol))]
                fn proved($(_: $c),*) -> $result;
            }
            let _environment = DefaultEnvironment::enter();
            // SAFETY: the archive has this function, and it takes any numbers.
            unsafe { proved($($v),*) }
        }
    };
    (@ $symbol:ident, $result:ty, [$($a:ident: $c:ty,)*] [$($lent:expr,)+] [$($v:expr,)*]) => {
        /// # Safety
        ///
        /// A slice that passes the checks must be memory that the caller may read, and write if it is not const.
        #[no_mangle]
        pub unsafe extern "C" fn $symbol($($a: $c),*) -> $result {
            extern "C" {
                #[link_name = concat!("proved_", stringify!($symbol))]
                fn proved($(_: $c),*) -> $result;
            }
            if let Err(number) = check(&[$($lent),+]) {
                return refusal!($symbol, number);
            }
            let _environment = DefaultEnvironment::enter();
            // SAFETY: the archive has this function. Every slice is aligned, no longer than memory, and overlaps no
            // slice that is written; the caller says that the memory is there. Nothing is asked of the values.
            unsafe { proved($($v),*) }
        }
    };
    (@ $s:ident, $o:ty, [$($p:tt)*] [$($l:tt)*] [$($v:tt)*] $a:ident: &mut [$t:ty], $($rest:tt)*) => {
        surface!(@ $s, $o, [$($p)* $a: *mut $t, len: usize,] [$($l)* Lent::written($a, len),]
            [$($v)* pointer_mut($a), len,] $($rest)*);
    };
    (@ $s:ident, $o:ty, [$($p:tt)*] [$($l:tt)*] [$($v:tt)*] $a:ident: &[$t:ty], $($rest:tt)*) => {
        surface!(@ $s, $o, [$($p)* $a: *const $t, len: usize,] [$($l)* Lent::read($a, len),]
            [$($v)* pointer($a), len,] $($rest)*);
    };
    (@ $s:ident, $o:ty, [$($p:tt)*] [$($l:tt)*] [$($v:tt)*] $a:ident: $t:ty, $($rest:tt)*) => {
        surface!(@ $s, $o, [$($p)* $a: $t,] [$($l)*] [$($v)* $a,] $($rest)*);
    };
    ($($symbol:ident as $name:ident($($parameters:tt)*) -> $result:ty;)*) => {
        $(surface!(@ $symbol, $result, [] [] [] $($parameters)*,);)*
    };
}

include!("../../rust/src/functions.rs");
