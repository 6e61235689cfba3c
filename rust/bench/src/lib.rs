//! What the benchmarks share: patterns, exact room for them, the least of many times, and counts of instructions.

pub mod counting;
pub mod patterns;
pub mod timing;
