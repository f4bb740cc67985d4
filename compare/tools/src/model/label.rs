//! 'Label hash' and 'Filter' of document 01; the hash from any start (K7 of document 02).

/// Where the hash of a label starts.
pub const START: u64 = 0xcbf2_9ce4_8422_2325;

/// FNV-1a, 64 bits: the value after the last byte.
pub fn hash_from(start: u64, bytes: &[u8]) -> u64 {
    let step = |h: u64, byte: &u8| (h ^ u64::from(*byte)).wrapping_mul(0x100_0000_01b3);
    bytes.iter().fold(start, step)
}

pub fn hash_bytes(label: &[u8]) -> u64 {
    hash_from(START, label)
}

/// 256 bits in four words.
#[derive(Clone, Default, Debug, PartialEq)]
pub struct Filter(pub [u64; 4]);

/// The two bits of a hash.
fn bits(hash: u64) -> [u64; 2] {
    [hash % 256, ((hash >> 32) * 0x9e37_79b9) % 256]
}

impl Filter {
    pub fn insert(&mut self, hash: u64) {
        for bit in bits(hash) {
            self.0[(bit / 64) as usize] |= 1 << (bit % 64);
        }
    }

    pub fn denies(&self, hash: u64) -> bool {
        bits(hash).iter().any(|bit| self.0[(bit / 64) as usize] >> (bit % 64) & 1 == 0)
    }
}
