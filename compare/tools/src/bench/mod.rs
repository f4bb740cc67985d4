//! The benchmark: inputs, measurements, tables and the plot.
pub mod inputs;
pub mod measure;
pub mod page;
pub mod plot;
