//! From a file or a stream to recorded bytes: the head of a WAV file, its form, and the audio block by block.

pub mod block;
pub mod form;
pub mod head;
pub mod hints;
pub mod source;
pub mod until;
pub mod wav;
