//! Comparisons and measures of the library, through its archive and its program, beside the
//! independent implementation of document 01.
#![deny(unsafe_code)]

pub mod addresses;
pub mod arguments;
pub mod calls;
pub mod damage;
pub mod difference;
pub mod interface;
pub mod library;
pub mod measure;
pub mod messages;
pub mod random;
pub mod sessions;
