//! Inputs made from a seed: deliveries for measuring, and small ones for comparing.

pub mod delivery;
pub mod files;
pub mod nests;
pub mod rng;
pub mod rules;
pub mod sources;
pub mod tokens;
pub mod trees;

pub use rng::Rng;
