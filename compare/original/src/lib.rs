//! The original, compiled from its own files. `simd` falls back to its `fallback::dot`, since no feature is set.
#![allow(dead_code, unexpected_cfgs, unused_imports)]

mod float_ord;

include!(concat!(env!("OUT_DIR"), "/modules.rs"));

pub use error::RetrieveError;
