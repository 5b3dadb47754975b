//! What the tests share. A test uses a part of it.

#![allow(dead_code, unused_imports)]

pub mod calls;
pub mod cases;
pub mod command;
pub mod fenced;
pub mod fields;
pub mod guarded;
pub mod header;
pub mod raster;
pub mod rounds;
pub mod rows;
pub mod strip;
pub mod strip_cases;
pub mod table;

pub use calls::{agreed, answer, Answer, Call, Entry, Outcome};
