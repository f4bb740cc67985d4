//! Stand-in for serde: the names that the original imports. Nothing is serialized in a comparison.
pub use derives::{Deserialize, Serialize};

/// Has every type.
pub trait Serialize {}

impl<T: ?Sized> Serialize for T {}

/// Has every type.
pub trait Deserialize<'de> {}

impl<'de, T> Deserialize<'de> for T {}
