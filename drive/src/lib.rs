//! Operations as values, and both stores driven by them: ours through its Rust crate, the published one by its calls.
pub mod ops;
pub mod ours;
pub mod theirs;
