//! A model of add, taking back, withdrawing, build and search, written from the text of documents 01 and 02 and from neither program.
pub mod label;
pub mod number;
pub mod refusal;
pub mod search;
pub mod store;
pub mod tree;
