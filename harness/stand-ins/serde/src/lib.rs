//! Names only: nothing is ever serialized.

pub use no_derives::{Deserialize, Serialize};

pub trait Serializer {
    type Ok;
    type Error;

    fn serialize_bytes(self, bytes: &[u8]) -> Result<Self::Ok, Self::Error>;
}

pub trait Deserializer<'de> {
    type Error;

    fn bytes(self) -> Result<Vec<u8>, Self::Error>;
}

pub trait Serialize {
    fn serialize<S: Serializer>(&self, serializer: S) -> Result<S::Ok, S::Error>;
}

pub trait Deserialize<'de>: Sized {
    fn deserialize<D: Deserializer<'de>>(deserializer: D) -> Result<Self, D::Error>;
}

impl<'de> Deserialize<'de> for Vec<u8> {
    fn deserialize<D: Deserializer<'de>>(deserializer: D) -> Result<Vec<u8>, D::Error> {
        deserializer.bytes()
    }
}
