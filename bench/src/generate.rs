//! Deterministic inputs: valid charts and diagrams of many shapes, broken files, benchmark loads.

pub mod broken;
pub mod charts;
pub mod corners;
pub mod costs;
pub mod diagrams;
pub mod groups;
pub mod lists;
pub mod load;
pub mod long;
pub mod mutate;
pub mod nodes;
pub mod operands;
pub mod padded;
pub mod random;
pub mod remarks;
pub mod rows;
pub mod rules;
pub mod shapes;
pub mod steps;
pub mod three_files;
pub mod ticks;

pub use random::Random;
