//! What the drivers share: grids, the Rust's answer to a grid, and ours.

pub mod answer;
pub mod grid;
pub mod oracle;
pub mod stream;
