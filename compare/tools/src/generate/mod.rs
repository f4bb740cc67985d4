//! Random cases.
pub mod index;
pub mod labels;
pub mod pairs;
pub mod vectors;
