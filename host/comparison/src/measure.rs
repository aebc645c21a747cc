//! Measures of the library and its program beside the independent implementation, on one input.

pub mod calls;
pub mod processes;
pub mod sessions;
pub mod table;
pub mod timing;
