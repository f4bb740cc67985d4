//! The checks of one case: the store after adds, takings back and withdrawals and after a build, each search against the model, the original and brute force.
pub mod both;
pub mod case;
pub mod domain;
pub mod layout;
pub mod names;
pub mod pool;
pub mod search;
pub mod shrink;
pub mod teach;
pub mod withdraw;
