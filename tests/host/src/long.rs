//! The long run: every call of the header beside the independent implementation.

pub mod calls;
pub mod inputs;
pub mod run;
