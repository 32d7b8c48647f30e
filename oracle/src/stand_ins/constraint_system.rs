//! What shift.rs finds beside itself: the number of a value, and where its word comes from.

use super::{
    binius_utils::serialization::{DeserializeBytes, SerializationError, SerializeBytes},
    bytes::{Buf, BufMut},
};
use crate::word::Word;

#[derive(Copy, Clone, Debug, Hash, PartialEq, Eq, PartialOrd, Ord)]
pub struct ValueIndex(pub u32);

impl SerializeBytes for ValueIndex {
    fn serialize(&self, write_buf: impl BufMut) -> Result<(), SerializationError> {
        self.0.serialize(write_buf)
    }
}

impl DeserializeBytes for ValueIndex {
    fn deserialize(read_buf: impl Buf) -> Result<Self, SerializationError> {
        Ok(ValueIndex(u32::deserialize(read_buf)?))
    }
}

pub trait WordSource {
    fn word(&self, index: ValueIndex) -> Word;
}

/// shift.rs names it for its own tests, which are not given.
#[cfg(test)]
pub struct ValueVec;
