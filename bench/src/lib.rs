//! An engine written for speed, to measure the proved one by.

pub mod fast;
