//! What the comparison and the benchmark share: the reference, the Rust's answers, and files
//! and lists of calls made from a seed.

pub mod append;
pub mod blocks;
pub mod charge;
pub mod draft;
pub mod faults;
pub mod generate;
pub mod lists;
pub mod names;
pub mod original;
pub mod outside;
pub mod reference;
pub mod rng;
pub mod walk;
pub mod widths;
