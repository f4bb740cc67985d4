//! What the tools share.
pub mod bench;
mod c;
pub mod case;
pub mod check;
pub mod damage;
pub mod echo;
pub mod ffi;
pub mod generate;
pub mod model;
pub mod ours;
pub mod parting;
pub mod random;
pub mod sample;
pub mod theirs;
