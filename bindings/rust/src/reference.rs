//! References and URIs, read in their strings.

use crate::error::{BufferError, Error, ErrorKind};
use crate::sys::{self, Parts, Write};
use core::convert::TryFrom;
use core::fmt;
use core::hash::{Hash, Hasher};
use core::str;

/// The kind of a host.
#[derive(Clone, Copy, Debug, PartialEq, Eq, Hash)]
pub enum HostKind {
    /// A registered name, which may be empty.
    Name,
    /// An IPv4 address.
    Ipv4,
    /// An IPv6 address, in brackets.
    Ipv6,
    /// An address of a later version, in brackets: `[v1.x]`.
    IpvFuture,
}

/// A URI or a relative reference (RFC 3986, section 4.1), read in its string. Nothing is allocated.
///
/// The components stand as the string spells them: without delimiters, not decoded and not normalized. An absent component is `None`,
/// and one that is present may be empty.
///
/// ```
/// use uriparse_rattle::{HostKind, UriRef};
///
/// let reference = UriRef::parse("//user:pass@example.com:0080/a/b?q#")?;
/// assert_eq!(reference.scheme(), None);
/// assert_eq!(reference.authority(), Some("user:pass@example.com:0080"));
/// assert_eq!(reference.username(), Some("user"));
/// assert_eq!(reference.password(), Some("pass"));
/// assert_eq!(reference.host(), Some("example.com"));
/// assert_eq!(reference.host_kind(), Some(HostKind::Name));
/// assert_eq!(reference.port(), Some("0080"));
/// assert_eq!(reference.port_number(), Some(80));
/// assert_eq!(reference.path(), "/a/b");
/// assert_eq!(reference.query(), Some("q"));
/// assert_eq!(reference.fragment(), Some(""));
/// # Ok::<(), uriparse_rattle::Error>(())
/// ```
///
/// Two references are equal if their hosts are of one kind and their normal forms would differ at most in dot segments: case and
/// percent-encoding don't count where they mean nothing. Equal references have equal hashes. The hash has a fixed key, so strings can be
/// chosen that collide in a `HashMap`.
///
/// ```
/// use uriparse_rattle::UriRef;
///
/// assert_eq!(UriRef::parse("HTTP://h/%7e")?, UriRef::parse("http://H/~")?);
/// assert_ne!(UriRef::parse("http://h/a/../b")?, UriRef::parse("http://h/b")?);
/// # Ok::<(), uriparse_rattle::Error>(())
/// ```
#[derive(Clone, Copy)]
pub struct UriRef<'a> {
    text: &'a str,
    parts: Parts,
}

/// A URI: a reference with a scheme (RFC 3986, section 3), read in its string. Nothing is allocated.
///
/// Its components, `==` and its hash are those of [`UriRef`].
///
/// ```
/// use uriparse_rattle::{ErrorKind, Uri, UriRef};
///
/// let base = Uri::parse("http://a/b/c/d;p?q")?;
/// assert_eq!(base.scheme(), "http");
/// assert_eq!(base.resolve(&UriRef::parse("../g#s")?)?.as_str(), "http://a/b/g#s");
/// assert_eq!(Uri::parse("../g").unwrap_err().kind(), ErrorKind::NotUri);
/// # Ok::<(), uriparse_rattle::Error>(())
/// ```
#[derive(Clone, Copy, PartialEq, Eq, Hash)]
pub struct Uri<'a>(UriRef<'a>);

/// What a call writes to the buffer.
pub(crate) fn written<'o>(out: &'o mut [u8], write: Write<'_>) -> Result<&'o str, BufferError> {
    let len = write.into_slice(out).map_err(BufferError::of)?;
    Ok(str::from_utf8(&out[..len]).expect("what is written is ASCII"))
}

impl<'a> UriRef<'a> {
    /// Reads a URI or a relative reference.
    ///
    /// # Errors
    ///
    /// If the string is no reference, its error says why and where.
    pub fn parse(text: &'a str) -> Result<Self, Error> {
        match sys::parse(text.as_bytes()) {
            Ok(parts) => Ok(Self { text, parts }),
            Err(code) => Err(Error::new(code, text.as_bytes())),
        }
    }

    /// The string that was read.
    #[must_use]
    pub fn as_str(&self) -> &'a str {
        self.text
    }

    optional_scheme!('a);
    components!('a);

    /// Whether it is a URI: a reference with a scheme.
    #[must_use]
    pub fn is_uri(&self) -> bool {
        self.scheme().is_some()
    }

    /// Writes the normal form to the buffer: see [`normalize`](Self::normalize). What follows it there is unchanged.
    ///
    /// # Errors
    ///
    /// If the buffer is too small, the error says how many bytes are enough, and nothing is written.
    ///
    /// ```
    /// use uriparse_rattle::{BufferError, UriRef};
    ///
    /// let reference = UriRef::parse("HTTP://h/a/../%7e").unwrap();
    /// assert_eq!(reference.normalize_into(&mut [0; 20]), Ok("http://h/~"));
    /// assert_eq!(reference.normalize_into(&mut [0; 9]), Err(BufferError::TooSmall { needed: 10 }));
    /// ```
    pub fn normalize_into<'o>(&self, out: &'o mut [u8]) -> Result<&'o str, BufferError> {
        written(out, Write::Normal(self.text.as_bytes()))
    }

    pub(crate) fn as_parts(&self) -> (&'a str, &Parts) {
        (self.text, &self.parts)
    }

    /// The reference that was read in this string.
    #[cfg(feature = "alloc")]
    pub(crate) fn from_parts(text: &'a str, parts: Parts) -> Self {
        Self { text, parts }
    }
}

impl<'a> Uri<'a> {
    /// Reads a URI.
    ///
    /// # Errors
    ///
    /// If the string is no reference, its error says why and where. If it has no scheme, or a colon in its first segment shows that it was
    /// meant to have one, the error is [`ErrorKind::NotUri`].
    pub fn parse(text: &'a str) -> Result<Self, Error> {
        Self::of(UriRef::parse(text))
    }

    /// The URI that a reference is, or its error.
    fn of(reference: Result<UriRef<'a>, Error>) -> Result<Self, Error> {
        match reference {
            Ok(reference) => Self::try_from(reference),
            Err(error) if error.kind() == ErrorKind::SchemelessPathStartsWithColonSegment => {
                Err(Error::NOT_URI)
            }
            Err(error) => Err(error),
        }
    }

    /// The string that was read.
    #[must_use]
    pub fn as_str(&self) -> &'a str {
        self.0.text
    }

    /// The URI as a reference.
    #[must_use]
    pub fn as_uri_ref(&self) -> UriRef<'a> {
        self.0
    }

    /// The scheme, without its `:`.
    #[must_use]
    pub fn scheme(&self) -> &'a str {
        self.0.scheme().unwrap_or("")
    }

    components!('a);

    /// Writes the normal form to the buffer: see [`UriRef::normalize_into`].
    ///
    /// # Errors
    ///
    /// If the buffer is too small, the error says how many bytes are enough, and nothing is written.
    pub fn normalize_into<'o>(&self, out: &'o mut [u8]) -> Result<&'o str, BufferError> {
        self.0.normalize_into(out)
    }

    /// Writes the target of the reference against this base to the buffer: see [`resolve`](Self::resolve). What follows it there is
    /// unchanged.
    ///
    /// # Errors
    ///
    /// If the buffer is too small, the error says how many bytes are enough. If the merged paths have more than 1,000,000 segments, the
    /// error is [`BufferError::TooManySegments`]. In both cases nothing is written.
    ///
    /// ```
    /// use uriparse_rattle::{Uri, UriRef};
    ///
    /// let base = Uri::parse("http://a/b/c/d;p?q").unwrap();
    /// let mut out = [0; 100];
    /// assert_eq!(base.resolve_into(&UriRef::parse("../g").unwrap(), &mut out), Ok("http://a/b/g"));
    /// ```
    pub fn resolve_into<'o>(
        &self,
        reference: &UriRef<'_>,
        out: &'o mut [u8],
    ) -> Result<&'o str, BufferError> {
        written(
            out,
            Write::Target(self.as_str().as_bytes(), reference.text.as_bytes()),
        )
    }

    /// Writes the reference that leads from this base to the URI to the buffer: see [`relativize`](Self::relativize). What follows it
    /// there is unchanged.
    ///
    /// # Errors
    ///
    /// If the buffer is too small, the error says how many bytes are enough, and nothing is written.
    pub fn relativize_into<'o>(
        &self,
        uri: &Uri<'_>,
        out: &'o mut [u8],
    ) -> Result<&'o str, BufferError> {
        written(
            out,
            Write::Relative(self.as_str().as_bytes(), uri.as_str().as_bytes()),
        )
    }

    pub(crate) fn as_parts(&self) -> (&'a str, &Parts) {
        self.0.as_parts()
    }

    /// The URI that this reference, which has a scheme, is.
    #[cfg(feature = "alloc")]
    pub(crate) fn with_scheme(reference: UriRef<'a>) -> Self {
        Self(reference)
    }
}

impl PartialEq for UriRef<'_> {
    fn eq(&self, other: &Self) -> bool {
        sys::equal(self.text.as_bytes(), other.text.as_bytes())
    }
}

impl Eq for UriRef<'_> {}

impl Hash for UriRef<'_> {
    fn hash<H: Hasher>(&self, state: &mut H) {
        state.write_u64(sys::hash(self.text.as_bytes()));
    }
}

impl fmt::Display for UriRef<'_> {
    fn fmt(&self, f: &mut fmt::Formatter<'_>) -> fmt::Result {
        f.pad(self.text)
    }
}

impl fmt::Debug for UriRef<'_> {
    fn fmt(&self, f: &mut fmt::Formatter<'_>) -> fmt::Result {
        f.debug_tuple("UriRef").field(&self.text).finish()
    }
}

impl fmt::Display for Uri<'_> {
    fn fmt(&self, f: &mut fmt::Formatter<'_>) -> fmt::Result {
        self.0.fmt(f)
    }
}

impl fmt::Debug for Uri<'_> {
    fn fmt(&self, f: &mut fmt::Formatter<'_>) -> fmt::Result {
        f.debug_tuple("Uri").field(&self.as_str()).finish()
    }
}

impl<'a> TryFrom<&'a str> for UriRef<'a> {
    type Error = Error;

    fn try_from(text: &'a str) -> Result<Self, Error> {
        Self::parse(text)
    }
}

/// Bytes that aren't UTF-8 are rejected like any other byte that no reference has.
impl<'a> TryFrom<&'a [u8]> for UriRef<'a> {
    type Error = Error;

    fn try_from(bytes: &'a [u8]) -> Result<Self, Error> {
        let parts = sys::parse(bytes).map_err(|code| Error::new(code, bytes))?;
        let text = str::from_utf8(bytes).expect("a reference is ASCII");
        Ok(Self { text, parts })
    }
}

impl<'a> TryFrom<&'a str> for Uri<'a> {
    type Error = Error;

    fn try_from(text: &'a str) -> Result<Self, Error> {
        Self::parse(text)
    }
}

/// Bytes that aren't UTF-8 are rejected like any other byte that no reference has.
impl<'a> TryFrom<&'a [u8]> for Uri<'a> {
    type Error = Error;

    fn try_from(bytes: &'a [u8]) -> Result<Self, Error> {
        Self::of(UriRef::try_from(bytes))
    }
}

/// The error is [`ErrorKind::NotUri`] if the reference has no scheme.
impl<'a> TryFrom<UriRef<'a>> for Uri<'a> {
    type Error = Error;

    fn try_from(reference: UriRef<'a>) -> Result<Self, Error> {
        if reference.is_uri() {
            Ok(Self(reference))
        } else {
            Err(Error::NOT_URI)
        }
    }
}

impl<'a> From<Uri<'a>> for UriRef<'a> {
    fn from(uri: Uri<'a>) -> Self {
        uri.0
    }
}

impl AsRef<str> for UriRef<'_> {
    fn as_ref(&self) -> &str {
        self.text
    }
}

impl AsRef<str> for Uri<'_> {
    fn as_ref(&self) -> &str {
        self.as_str()
    }
}
