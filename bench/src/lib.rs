//! An independent reference of the socket-cycle planner, written from docs/REFERENCE.md, with the
//! checkers, generators and timed implementations that the tests and benchmarks are made of.

pub mod files;
pub mod guard;
pub mod lent;
pub mod nodes;
pub mod planner;
pub mod steps;

pub mod check;
pub mod reference;

pub mod generate;

pub mod same;
pub mod textbook;

#[cfg(feature = "before")]
pub mod before;
#[cfg(feature = "library")]
pub mod library;

pub mod cases;
pub mod compare;
pub mod crash;
pub mod figures;
pub mod fuzz;
pub mod sabotage;
pub mod saved;
pub mod tally;

pub mod history;
pub mod loads;
pub mod measure;
pub mod page;
pub mod placements;
pub mod plot;
pub mod ratios;
pub mod report;
pub mod stack;
pub mod stacks;
pub mod targets;
