//! Names of labels, in two parts, and their hash.

use crate::sys;
use crate::RetrieveError;

/// A label's name in two parts, which are joined without anything between them; either may be empty. However a name is parted,
/// every call answers and writes the same. A name in one piece is `"kerb-7/silt".into()`.
///
/// A label is its bytes: text or any others, and two labels are the same exactly when their bytes are.
#[derive(Clone, Copy, Debug, Default)]
pub struct Name<'a> {
    pub first: &'a [u8],
    pub second: &'a [u8],
}

impl<'a> Name<'a> {
    /// Each part is text, or bytes.
    pub fn new<T: AsRef<[u8]> + ?Sized>(first: &'a T, second: &'a T) -> Self {
        Self {
            first: first.as_ref(),
            second: second.as_ref(),
        }
    }
}

impl<'a, T: AsRef<[u8]> + ?Sized> From<&'a T> for Name<'a> {
    fn from(name: &'a T) -> Self {
        Self {
            first: name.as_ref(),
            second: &[],
        }
    }
}

impl<'a, T: AsRef<[u8]> + ?Sized> From<(&'a T, &'a T)> for Name<'a> {
    fn from((first, second): (&'a T, &'a T)) -> Self {
        Self::new(first, second)
    }
}

/// The two lists of an add: two lengths a name, and all bytes. A length is one byte, so a name is cut anew behind as many bytes
/// as a first part can have.
pub(crate) fn lists(names: &[Name<'_>]) -> Result<(Vec<u8>, Vec<u8>), RetrieveError> {
    let mut lengths = Vec::with_capacity(2 * names.len());
    let mut bytes = Vec::new();
    for name in names {
        let total = name.first.len() + name.second.len();
        let first = u8::try_from(total).unwrap_or(u8::MAX);
        let second = u8::try_from(total - usize::from(first));
        lengths.extend([first, second.map_err(|_| RetrieveError::LabelTooLong)?]);
        bytes.extend_from_slice(name.first);
        bytes.extend_from_slice(name.second);
    }
    Ok((lengths, bytes))
}

/// Where the hash of a whole name starts.
pub const LABEL_START: u64 = 0xcbf2_9ce4_8422_2325;

/// The label hash (FNV-1a) from a start: the value after the last byte. A name's hash is that of its second part from that of its
/// first.
///
/// ```
/// use curator::{label_hash, LABEL_START};
///
/// let drain = label_hash(LABEL_START, b"kerb-7/");
/// assert_eq!(label_hash(drain, b"silt"), label_hash(LABEL_START, b"kerb-7/silt"));
/// assert_eq!(label_hash(drain, b""), drain);
/// ```
pub fn label_hash(start: u64, bytes: &[u8]) -> u64 {
    // SAFETY: the pointer and the count are those of one list, which is only read.
    unsafe { sys::curator_label_hash(start, bytes.as_ptr(), bytes.len()) }
}
