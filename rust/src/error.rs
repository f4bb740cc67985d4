//! Why a call is refused.

use std::fmt;

/// Why a call is refused. A refused call leaves the index and its answers as they were.
#[derive(Clone, Copy, Debug, PartialEq, Eq, Hash)]
#[non_exhaustive]
pub enum RetrieveError {
    /// 1: the dimension is outside 1 to 128.
    InvalidDimension,
    /// 2: another setting or a capacity is outside its limits.
    InvalidConfig,
    /// 3: a lent list is too short.
    ListTooShort,
    /// 4: the state is not one that the calls return.
    InvalidState,
    /// 5: the index is built, so nothing can be added or taken back.
    AlreadyBuilt,
    /// 6: the index is not built, so nothing can be searched.
    NotBuilt,
    /// 7: the vector's or the query's length is not the index's dimension.
    DimensionMismatch,
    /// 8: a component is infinite or NaN.
    NonFiniteInput,
    /// 9: the label lengths are an odd number, or do not sum to the label bytes.
    LabelLengths,
    /// 10: the index holds as many vectors as it has room for.
    VectorsFull,
    /// 11: the index has no room for that many label entries more.
    EntriesFull,
    /// 12: nothing was added, or all of it is taken back.
    EmptyIndex,
    /// 13: the tree has more nodes than there is room for.
    NodesFull,
    /// 14: an answer list is too short.
    AnswerTooShort,
    /// 15: a number that the call reads in the store points outside what is held; other damage is not noticed.
    Damaged,
    /// 19: no vector is held, so none can be taken back.
    NoVectorHeld,
    /// 20: the index has no room for that many bytes of label text more.
    TextFull,
    /// 24: no vector held has the document id, so it cannot be withdrawn.
    UnknownDocument,
    /// A label's name has more than 510 bytes. Refused here, before any call: it has no number.
    LabelTooLong,
}

use RetrieveError::*;

/// The refusals that have a number, with it.
const NUMBERED: &[(u32, RetrieveError)] = &[
    (1, InvalidDimension),
    (2, InvalidConfig),
    (3, ListTooShort),
    (4, InvalidState),
    (5, AlreadyBuilt),
    (6, NotBuilt),
    (7, DimensionMismatch),
    (8, NonFiniteInput),
    (9, LabelLengths),
    (10, VectorsFull),
    (11, EntriesFull),
    (12, EmptyIndex),
    (13, NodesFull),
    (14, AnswerTooShort),
    (15, Damaged),
    (19, NoVectorHeld),
    (20, TextFull),
    (24, UnknownDocument),
];

impl RetrieveError {
    /// The number that the library returns for this refusal.
    pub fn number(self) -> Option<u32> {
        NUMBERED
            .iter()
            .find(|pair| pair.1 == self)
            .map(|pair| pair.0)
    }

    /// What a returned number says: 0 is an answered call. The library returns 0 and the numbers of the list, no other.
    pub(crate) fn check(number: u32) -> Result<(), RetrieveError> {
        if number == 0 {
            return Ok(());
        }
        let refusal = NUMBERED.iter().find(|pair| pair.0 == number);
        Err(refusal.map_or(InvalidState, |pair| pair.1))
    }
}

impl fmt::Display for RetrieveError {
    fn fmt(&self, f: &mut fmt::Formatter<'_>) -> fmt::Result {
        f.write_str(match self {
            InvalidDimension => "the dimension is outside 1 to 128",
            InvalidConfig => "a setting or a capacity is outside its limits",
            ListTooShort => "a lent list is too short",
            InvalidState => "the state is not sound",
            AlreadyBuilt => "the index is already built",
            NotBuilt => "the index is not built; call build() before a search",
            DimensionMismatch => "the length is not the dimension of the index",
            NonFiniteInput => "a component is infinite or NaN",
            LabelLengths => "the label lengths are odd in number or do not sum to the label bytes",
            VectorsFull => "no room for another vector",
            EntriesFull => "no room for the label entries",
            EmptyIndex => "the index is empty",
            NodesFull => "no room for the nodes of the tree",
            AnswerTooShort => "an answer list is too short",
            Damaged => "the store is damaged",
            NoVectorHeld => "no vector is held",
            TextFull => "no room for the label text",
            UnknownDocument => "no vector held has the document id",
            LabelTooLong => "a label's name has more than 510 bytes",
        })
    }
}

impl std::error::Error for RetrieveError {}

#[cfg(test)]
mod tests {
    use super::*;

    #[test]
    fn numbers_and_back() {
        assert_eq!(RetrieveError::check(0), Ok(()));
        for n in (1..=15).chain([19, 20, 24]) {
            let error = RetrieveError::check(n).unwrap_err();
            assert_eq!(error.number(), Some(n));
            assert!(!error.to_string().is_empty());
        }
        assert_eq!(LabelTooLong.number(), None);
        assert_eq!(EmptyIndex.number(), Some(12));
        assert_eq!(NoVectorHeld.number(), Some(19));
        assert_eq!(TextFull.number(), Some(20));
        assert_eq!(UnknownDocument.number(), Some(24));
        for n in [16, 17, 18, 21, 22, 23, 25, u32::MAX] {
            assert_eq!(RetrieveError::check(n), Err(InvalidState));
        }
    }
}
