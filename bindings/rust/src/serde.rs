//! `Serialize` and `Deserialize` of serde for the references, with the feature `serde`. Each is a string. A string that isn't one is an
//! error with the words of [`Error`](crate::Error), which show nothing of the string.

use crate::{Uri, UriBuf, UriRef, UriRefBuf};
use alloc::string::String;
use core::convert::TryFrom;
use core::fmt;
use core::marker::PhantomData;
use serde::de::{Deserialize, Deserializer, Error, Visitor};
use serde::ser::{Serialize, Serializer};

/// Reads a `T` of the input's own string.
struct Borrowed<T>(PhantomData<T>);

impl<'de, T: TryFrom<&'de str, Error = crate::Error>> Visitor<'de> for Borrowed<T> {
    type Value = T;

    fn expecting(&self, f: &mut fmt::Formatter<'_>) -> fmt::Result {
        f.write_str("a borrowed string")
    }

    fn visit_borrowed_str<E: Error>(self, text: &'de str) -> Result<T, E> {
        T::try_from(text).map_err(E::custom)
    }

    /// A string that isn't the input's own, as one with escapes in JSON. The error doesn't show it, since it could have a password.
    fn visit_str<E: Error>(self, _: &str) -> Result<T, E> {
        Err(E::custom("expected a borrowed string"))
    }
}

/// Reads a `T` that owns its string.
struct Owned<T>(PhantomData<T>);

impl<T> Visitor<'_> for Owned<T>
where
    T: TryFrom<String, Error = crate::Error> + for<'a> TryFrom<&'a str, Error = crate::Error>,
{
    type Value = T;

    fn expecting(&self, f: &mut fmt::Formatter<'_>) -> fmt::Result {
        f.write_str("a string")
    }

    fn visit_str<E: Error>(self, text: &str) -> Result<T, E> {
        T::try_from(text).map_err(E::custom)
    }

    fn visit_string<E: Error>(self, text: String) -> Result<T, E> {
        T::try_from(text).map_err(E::custom)
    }
}

/// `Serialize` of types that are read as a string.
macro_rules! serialize {
    ($($type:ty),*) => {$(
        impl Serialize for $type {
            fn serialize<S: Serializer>(&self, serializer: S) -> Result<S::Ok, S::Error> {
                serializer.serialize_str(self.as_str())
            }
        }
    )*};
}

serialize!(UriRef<'_>, Uri<'_>, UriRefBuf, UriBuf);

/// It borrows the input's string. A string that the input doesn't have as it is, such as one with escapes, is an error: read an owned
/// type of it.
impl<'de: 'a, 'a> Deserialize<'de> for UriRef<'a> {
    fn deserialize<D: Deserializer<'de>>(deserializer: D) -> Result<Self, D::Error> {
        deserializer.deserialize_str(Borrowed(PhantomData))
    }
}

/// It borrows the input's string. A string that the input doesn't have as it is, such as one with escapes, is an error: read an owned
/// type of it.
impl<'de: 'a, 'a> Deserialize<'de> for Uri<'a> {
    fn deserialize<D: Deserializer<'de>>(deserializer: D) -> Result<Self, D::Error> {
        deserializer.deserialize_str(Borrowed(PhantomData))
    }
}

impl<'de> Deserialize<'de> for UriRefBuf {
    fn deserialize<D: Deserializer<'de>>(deserializer: D) -> Result<Self, D::Error> {
        deserializer.deserialize_string(Owned(PhantomData))
    }
}

impl<'de> Deserialize<'de> for UriBuf {
    fn deserialize<D: Deserializer<'de>>(deserializer: D) -> Result<Self, D::Error> {
        deserializer.deserialize_string(Owned(PhantomData))
    }
}
