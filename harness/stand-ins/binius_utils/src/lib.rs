//! Stand-in: what word.rs and shift.rs name. Serialization is not compared; it is here so that the files compile.

pub mod checked_arithmetics {
    /// The exponent of a power of two.
    pub const fn checked_log_2(value: usize) -> usize {
        assert!(value.is_power_of_two());
        value.trailing_zeros() as usize
    }
}

pub mod serialization {
    use bytes::{Buf, BufMut};

    #[derive(Debug)]
    pub enum SerializationError {
        NotEnoughBytes,
        UnknownEnumVariant { name: &'static str, index: u8 },
        InvalidConstruction { name: &'static str },
    }

    pub trait SerializeBytes {
        fn serialize(&self, write_buf: impl BufMut) -> Result<(), SerializationError>;
    }

    pub trait DeserializeBytes {
        fn deserialize(read_buf: impl Buf) -> Result<Self, SerializationError>
        where
            Self: Sized;
    }

    macro_rules! as_little_endian {
        ($number:ty, $get:ident, $put:ident, $wide:ty) => {
            impl SerializeBytes for $number {
                fn serialize(&self, mut write_buf: impl BufMut) -> Result<(), SerializationError> {
                    write_buf.$put(*self as $wide);
                    Ok(())
                }
            }

            impl DeserializeBytes for $number {
                fn deserialize(mut read_buf: impl Buf) -> Result<Self, SerializationError> {
                    if read_buf.remaining() < size_of::<$wide>() {
                        return Err(SerializationError::NotEnoughBytes);
                    }
                    Ok(read_buf.$get() as $number)
                }
            }
        };
    }

    as_little_endian!(u8, get_u8, put_u8, u8);
    as_little_endian!(u32, get_u32_le, put_u32_le, u32);
    as_little_endian!(u64, get_u64_le, put_u64_le, u64);
    as_little_endian!(usize, get_u64_le, put_u64_le, u64);
}
