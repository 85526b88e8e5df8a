//! What a caller lends to a call, and whether it can be a slice.

use std::ptr::NonNull;

/// A pointer is NULL, and its length is not 0.
pub const NULL: u32 = 101;
/// A pointer is not aligned as its type is.
pub const MISALIGNED: u32 = 102;
/// A slice is longer than memory can be.
pub const TOO_LONG: u32 = 103;
/// A slice that is written overlaps another one.
pub const OVERLAP: u32 = 104;

/// A slice as a caller passes it.
#[derive(Clone, Copy)]
pub struct Lent {
    /// The address of its first byte.
    start: usize,
    /// How many bytes it has, or None if a number cannot say it.
    bytes: Option<usize>,
    /// The alignment of its numbers.
    align: usize,
    /// Whether the call writes to it.
    written: bool,
}

impl Lent {
    fn of<T>(start: usize, len: usize, written: bool) -> Lent {
        Lent { start, bytes: len.checked_mul(size_of::<T>()), align: align_of::<T>(), written }
    }

    pub fn read<T>(pointer: *const T, len: usize) -> Lent {
        Lent::of::<T>(pointer as usize, len, false)
    }

    pub fn written<T>(pointer: *mut T, len: usize) -> Lent {
        Lent::of::<T>(pointer as usize, len, true)
    }

    /// Where it ends, or why it is no slice. An empty slice may be NULL, and then has no alignment to ask for.
    fn end(self) -> Result<usize, u32> {
        match self.bytes {
            Some(0) if self.start == 0 => Ok(0),
            _ if self.start == 0 => Err(NULL),
            _ if !self.start.is_multiple_of(self.align) => Err(MISALIGNED),
            Some(bytes) if bytes <= isize::MAX as usize => self.start.checked_add(bytes).ok_or(TOO_LONG),
            _ => Err(TOO_LONG),
        }
    }
}

/// Refuses the first slice that cannot be one, or else two that overlap if one of them is written.
pub fn check<const N: usize>(lent: &[Lent; N]) -> Result<(), u32> {
    let mut ends = [0; N];
    for (slice, end) in lent.iter().zip(&mut ends) {
        *end = slice.end()?;
    }
    for (at, one) in lent.iter().enumerate() {
        for (other, end) in lent.iter().zip(ends).take(at) {
            if (one.written || other.written) && one.start.max(other.start) < end.min(ends[at]) {
                return Err(OVERLAP);
            }
        }
    }
    Ok(())
}

/// A pointer that the proved code may be given: not NULL, also for an empty slice.
pub fn pointer<T>(pointer: *const T) -> *const T {
    if pointer.is_null() {
        return NonNull::dangling().as_ptr();
    }
    pointer
}

/// The same for a slice that is written.
pub fn pointer_mut<T>(pointer: *mut T) -> *mut T {
    if pointer.is_null() {
        return NonNull::dangling().as_ptr();
    }
    pointer
}

#[cfg(test)]
mod tests {
    use super::*;

    fn at<T>(start: usize, len: usize, written: bool) -> Lent {
        Lent::of::<T>(start, len, written)
    }

    #[test]
    fn one_slice() {
        for (lent, wanted) in [
            (at::<f32>(0, 0, true), Ok(())),
            (at::<f32>(0, 1, false), Err(NULL)),
            (at::<f32>(4_096, 8, true), Ok(())),
            (at::<f32>(4_098, 8, true), Err(MISALIGNED)),
            (at::<f32>(4_098, 0, true), Err(MISALIGNED)),
            (at::<u8>(4_098, 8, true), Ok(())),
            (at::<f32>(4_096, usize::MAX / 8, true), Ok(())),
            (at::<f32>(4_096, usize::MAX / 8 + 1, true), Err(TOO_LONG)),
            (at::<f32>(4_096, usize::MAX, true), Err(TOO_LONG)),
            (at::<u8>(usize::MAX - 4, 5, true), Err(TOO_LONG)),
        ] {
            assert_eq!(check(&[lent]), wanted, "{:#x}, {:?} bytes", lent.start, lent.bytes);
        }
    }

    #[test]
    fn two_slices() {
        let first = |written| at::<u8>(1_000, 10, written);
        for (start, len, overlaps) in [
            (990, 10, false),
            (990, 11, true),
            (1_009, 5, true),
            (1_010, 5, false),
            (1_000, 10, true),
            (1_003, 0, false),
        ] {
            for (one, other) in [(true, true), (true, false), (false, true), (false, false)] {
                let wanted = if overlaps && (one || other) { Err(OVERLAP) } else { Ok(()) };
                assert_eq!(check(&[first(one), at::<u8>(start, len, other)]), wanted, "{start} {len} {one} {other}");
            }
        }
    }
}
