//! Place keys: strings that begin with a URI's host from its last label on, and what those within a domain and below a base begin with.

#[cfg(feature = "alloc")]
use crate::check;
use crate::error::BufferError;
#[cfg(feature = "alloc")]
use crate::error::Error;
#[cfg(feature = "alloc")]
use crate::owned;
use crate::reference::{written, Uri};
use crate::sys::Write;
#[cfg(feature = "alloc")]
use alloc::string::String;

impl Uri<'_> {
    /// Writes the place key to the buffer: see [`place_key`](Self::place_key). What follows it there is unchanged.
    ///
    /// # Errors
    ///
    /// If the buffer is too small, the error says how many bytes are enough, and nothing is written.
    pub fn place_key_into<'o>(&self, out: &'o mut [u8]) -> Result<&'o str, BufferError> {
        written(out, Write::PlaceKey(self.as_str().as_bytes()))
    }

    /// The place key: characters from U+0001 to U+007E that begin with the host, from its last label on. The keys of the URIs within a
    /// domain begin with [`domain_prefix`], and those below a base with its [`base_prefix`](Self::base_prefix). Two URIs have the same key
    /// exactly if their normal forms are equal, with the ports that they use. Nothing reads a key back.
    ///
    /// ```
    /// use uriparse_rattle::{domain_prefix, Uri};
    ///
    /// let key = Uri::parse("http://www.example.com/app/x")?.place_key();
    /// assert!(key.starts_with(&domain_prefix("Example.com")?));
    /// assert!(!key.starts_with(&domain_prefix("ample.com")?));
    /// assert!(key.starts_with(&Uri::parse("http://www.example.com:80/app/")?.base_prefix()));
    /// # Ok::<(), uriparse_rattle::Error>(())
    /// ```
    #[cfg(feature = "alloc")]
    #[must_use]
    pub fn place_key(&self) -> String {
        owned::written(Write::PlaceKey(self.as_str().as_bytes())).expect("a URI has a place key")
    }

    /// What the place keys of all URIs below this base begin with. Those of some others do too: of URIs for which
    /// [`is_within`](Self::is_within) is false only because readers disagree on a segment.
    #[cfg(feature = "alloc")]
    #[must_use]
    pub fn base_prefix(&self) -> String {
        owned::written(Write::BasePrefix(self.as_str().as_bytes())).expect("a URI has a prefix")
    }
}

/// What the place keys of all URIs within a domain begin with, and those of no other: see [`Uri::place_key`].
///
/// # Errors
///
/// If the domain is no host, its error says why and where: `example.com:443` is wrong at byte 11.
#[cfg(feature = "alloc")]
pub fn domain_prefix(domain: &str) -> Result<String, Error> {
    owned::written(Write::DomainPrefix(domain.as_bytes()))
        .map_err(|code| check::domain_error(code, domain.as_bytes()))
}
