//! The functions of a desk: of the proved one, and of whatever stands beside it.

use crate::desk::Way;

type Opening = fn(&mut [u32], &mut [f32], u32, &[u8]) -> u32;

/// The functions of a desk, and the logarithms that belong to it.
pub struct Surface {
    pub open: Opening,
    pub open_crate: Opening,
    pub call1: fn(&mut [u32], &mut [f32], u32, &[f32], &mut [f32]) -> u32,
    pub call2: fn(&mut [u32], &mut [f32], u32, &[f32], u32, &mut [f32], &mut [f32]) -> u32,
    pub call2_own: fn(&mut [u32], &mut [f32], u32, &[f32], &mut [f32], &mut [f32]) -> u32,
    pub call3: fn(&mut [u32], &mut [f32], u32, &[f32], &[f32], &[u8], &mut [f32], &mut [f32]) -> u32,
    pub call4: fn(&mut [u32], &mut [f32], u32, &[f32], &mut [f32]) -> u32,
    pub first_half: fn(&mut [u32], &mut [f32], u32, &[f32], &mut [f32]) -> u32,
    pub second_half: fn(&mut [u32], &mut [f32], u32, &[f32], &[u8], &mut [f32], &mut [f32]) -> u32,
    pub piece: fn(&mut [u32], &mut [f32], u32, &[f32], &mut [f32], &mut [f32]) -> u32,
    pub resume: fn(&mut [u32], &mut [f32], u32, &[f32], &[f32], &[u8], &mut [f32], &mut [f32], &mut [f32]) -> u32,
    pub logs: fn(&mut [f32], &[f32]) -> u32,
    /// None where a whole call is made of the calls that it is by definition.
    pub whole: Option<Whole>,
}

impl Surface {
    pub fn opening(&self, way: Way) -> Opening {
        match way {
            Way::Own => self.open,
            Way::Nnnoiseless => self.open_crate,
        }
    }
}

/// A frame and a piece in one call.
pub struct Whole {
    pub frame: WholeCall,
    pub take: WholeCall,
}

type WholeCall = fn(&mut [u32], &mut [f32], u32, &[f32], &[u8], &mut [f32], &mut [f32]) -> u32;

/// The proved desk.
pub const OURS: Surface = Surface {
    open: tuppence::open,
    open_crate: tuppence::open_crate,
    call1: tuppence::call1,
    call2: tuppence::call2,
    call2_own: tuppence::call2_own,
    call3: tuppence::call3,
    call4: tuppence::call4,
    first_half: tuppence::first_half,
    second_half: tuppence::second_half,
    piece: tuppence::piece,
    resume: tuppence::resume,
    logs: tuppence::logs,
    whole: Some(Whole { frame: tuppence::frame, take: tuppence::take }),
};

/// The proved desk without its whole calls: they are made of the others.
pub const LENT: Surface = Surface { whole: None, ..OURS };
