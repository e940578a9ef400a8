//! What the benchmark is made of: the mark, the measuring, the tables and the plot.

pub mod clock;
pub mod linking;
pub mod mark;
pub mod measure;
pub mod memory;
pub mod plot;
pub mod table;
