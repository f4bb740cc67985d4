//! Stand-in for thiserror: the derive macro alone.
pub use derives::Error;
