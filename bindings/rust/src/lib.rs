#![doc = include_str!("../README.md")]
#![no_std]
#![deny(unsafe_code)]
#![deny(unsafe_op_in_unsafe_fn)]
#![warn(missing_docs, rust_2018_idioms, clippy::undocumented_unsafe_blocks)]

#[cfg(feature = "alloc")]
extern crate alloc;
#[cfg(feature = "std")]
extern crate std;

#[macro_use]
mod components;

mod check;
#[cfg(feature = "alloc")]
mod coding;
#[cfg(feature = "alloc")]
mod edit;
mod error;
#[cfg(feature = "alloc")]
mod key;
#[cfg(feature = "alloc")]
mod owned;
mod pairs;
mod place_key;
mod reference;
#[cfg(feature = "serde")]
mod serde;
mod sort_key;
#[allow(unsafe_code)]
mod sys;

pub use check::{default_port, is_ambiguous, Disagreement};
#[cfg(feature = "alloc")]
pub use coding::{decode, encode, escape, form_decode, trim_link, Encoding};
#[cfg(feature = "alloc")]
pub use edit::{Change, Changes};
pub use error::{BufferError, Component, Error, ErrorKind};
#[cfg(feature = "alloc")]
pub use key::AsUriRef;
#[cfg(feature = "alloc")]
pub use owned::{UriBuf, UriRefBuf};
pub use pairs::{Pairs, Segments};
#[cfg(feature = "alloc")]
pub use place_key::domain_prefix;
pub use reference::{HostKind, Uri, UriRef};
pub use sort_key::KeyForm;
