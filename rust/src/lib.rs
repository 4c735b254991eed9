//! Tests of Keekaboor's exported functions, and what they are held against: an independent
//! implementation of the rules and of the job text, and an exhaustive search on small areas.

pub mod areas;
pub mod clock;
pub mod ffi;
pub mod gerber;
pub mod listcheck;
pub mod old;
pub mod program;
pub mod rules;
pub mod search;
pub mod text;
