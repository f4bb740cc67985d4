//! Stand-in for serde_json: both functions that the original names fail. Saving and loading are not part of the port.
use std::fmt;
use std::io::{Read, Write};

/// The failure of both functions.
#[derive(Debug)]
pub struct Error;

impl fmt::Display for Error {
    fn fmt(&self, f: &mut fmt::Formatter<'_>) -> fmt::Result {
        write!(f, "serde_json is a stand-in here")
    }
}

impl std::error::Error for Error {}

/// Fails.
pub fn to_writer_pretty<W: Write, T: ?Sized>(_: W, _: &T) -> Result<(), Error> {
    Err(Error)
}

/// Fails.
pub fn from_reader<R: Read, T>(_: R) -> Result<T, Error> {
    Err(Error)
}
