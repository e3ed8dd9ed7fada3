//! As much of serde as id.rs names in its hand-written implementations. Nothing calls it.

pub use serde_derive::{Deserialize, Serialize};

pub mod de {
    pub trait Error: Sized {
        fn custom<T: std::fmt::Display>(message: T) -> Self;
    }
}

pub trait Serializer: Sized {
    type Ok;
    type Error;
    fn serialize_str(self, text: &str) -> Result<Self::Ok, Self::Error>;
}

pub trait Serialize {
    fn serialize<S: Serializer>(&self, serializer: S) -> Result<S::Ok, S::Error>;
}

pub trait Deserializer<'de>: Sized {
    type Error: de::Error;
    fn string(self) -> Result<String, Self::Error>;
}

pub trait Deserialize<'de>: Sized {
    fn deserialize<D: Deserializer<'de>>(deserializer: D) -> Result<Self, D::Error>;
}

impl<'de> Deserialize<'de> for String {
    fn deserialize<D: Deserializer<'de>>(deserializer: D) -> Result<Self, D::Error> {
        deserializer.string()
    }
}
