//! The original's answers in 01's terms. Each function gives None where the files are absent.

/// Whether the three original files were there when this was built.
pub const PRESENT: bool = cfg!(original);

#[cfg(original)]
mod present;
#[cfg(original)]
pub use present::*;

#[cfg(not(original))]
mod absent;
#[cfg(not(original))]
pub use absent::*;
