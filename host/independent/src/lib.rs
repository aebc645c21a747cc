//! The OPTES tender book and its session log, written from document 01, requests S-1, S-2, S-4 and
//! S-5 of document 02 and the reading of their open points in docs/DECISIONS.md, without a look at
//! the Rattle sources.
//!
//! It shares no line with the proved crates, so that the two can be compared. `tender` has the
//! calls of a tender, from opening to allotting, `session` logs whole sessions by them,
//! `application` reads and writes a 6G1, `interface` does so through the calls that a host in C
//! has, `steadiness` tells how far one bid can push another, `compose` makes sessions for tests.
#![forbid(unsafe_code)]

pub mod address;
pub mod announcement;
pub mod application;
pub mod award;
pub mod calendar;
pub mod compose;
pub mod credit;
pub mod digits;
pub mod envelope;
pub mod errors;
pub mod interface;
pub mod refusal;
pub mod reply;
pub mod rules;
pub mod session;
pub mod steadiness;
pub mod tender;
