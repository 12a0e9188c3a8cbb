//! What the demo, the conversations of the test and the drivers of tests/storm share.

pub mod fields;
pub mod turns;
