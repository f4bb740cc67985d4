//! Damaged stores: random numbers in any part of the store and of the state.
pub mod bare;
pub mod both;
pub mod calls;
pub mod check;
pub mod guard;
pub mod make;
pub mod names;
pub mod pool;
pub mod random_calls;
pub mod short;
pub mod take_back;
pub mod withdraw;
