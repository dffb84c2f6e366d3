//! A second implementation of lane charts and plates, written from document 01 alone, and what is needed to set the
//! library's C interface against it.

pub mod blanks;
pub mod capi;
pub mod chart;
pub mod houses;
pub mod indices;
pub mod measure;
pub mod model;
pub mod parts;
pub mod random;
pub mod rests;
pub mod shapes;
pub mod sheets;
pub mod solver;
pub mod stacks;
pub mod swaps;
pub mod tally;
pub mod trial;
pub mod ways;
