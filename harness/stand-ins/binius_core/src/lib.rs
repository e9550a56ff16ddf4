//! Stand-in for the crate around word.rs and shift.rs, which are brought in unchanged.

// The unchanged files have functions that nothing here calls.
#![allow(dead_code)]

include!(concat!(env!("OUT_DIR"), "/word.in"));

pub mod constraint_system {
    use binius_utils::serialization::{DeserializeBytes, SerializationError, SerializeBytes};
    use bytes::{Buf, BufMut};

    use crate::word::Word;

    include!(concat!(env!("OUT_DIR"), "/shift.in"));

    pub use shift::{Composition, Shift, ShiftVariant, ShiftedValueIndex};

    /// The position of a value in the value vector.
    #[derive(Copy, Clone, Debug, Default, Hash, PartialEq, Eq, PartialOrd, Ord)]
    pub struct ValueIndex(pub u32);

    impl SerializeBytes for ValueIndex {
        fn serialize(&self, write_buf: impl BufMut) -> Result<(), SerializationError> {
            self.0.serialize(write_buf)
        }
    }

    impl DeserializeBytes for ValueIndex {
        fn deserialize(read_buf: impl Buf) -> Result<Self, SerializationError> {
            Ok(ValueIndex(u32::deserialize(read_buf)?))
        }
    }

    /// Where an operand's words are looked up.
    pub trait WordSource {
        fn word(&self, index: ValueIndex) -> Word;
    }

    pub struct AndConstraint(pub [Vec<ShiftedValueIndex>; 3]);
    pub struct ImulConstraint(pub [Vec<ShiftedValueIndex>; 4]);
    pub struct BmulConstraint(pub [Vec<ShiftedValueIndex>; 6]);
    pub struct ZeroConstraint(pub Vec<ShiftedValueIndex>);
}
