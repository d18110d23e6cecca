//! What the programs that compare the wrapper with the model share: a call of the model through the wrapper (`calls`),
//! words changed at random (`change`), one call done by both (`compare`), and the frame of a program (`program`).

#![forbid(unsafe_code)]

pub mod calls;
pub mod change;
pub mod compare;
pub mod program;
