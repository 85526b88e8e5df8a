//! A stand-in for the crate of this name: what the text uses of it, by the standard library.

/// Cells that threads may share.
pub mod sync {
    pub use std::sync::OnceLock as OnceCell;
}
