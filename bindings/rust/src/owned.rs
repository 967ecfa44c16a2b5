//! References and URIs that own their strings.

use crate::error::Error;
use crate::key::AsUriRef;
use crate::reference::{Uri, UriRef};
use crate::sys::{Parts, Write};
use alloc::string::String;
use core::borrow::Borrow;
use core::convert::TryFrom;
use core::fmt;
use core::hash::{Hash, Hasher};
use core::str::FromStr;

/// A [`UriRef`] that owns its string.
///
/// ```
/// use uriparse_rattle::UriRefBuf;
///
/// let reference: UriRefBuf = "../a?q".parse()?;
/// assert_eq!(reference.path(), "../a");
/// assert_eq!(reference, UriRefBuf::try_from(String::from("../%61?q"))?);
/// # Ok::<(), uriparse_rattle::Error>(())
/// ```
#[derive(Clone)]
pub struct UriRefBuf {
    text: String,
    parts: Parts,
}

/// A [`Uri`] that owns its string.
///
/// ```
/// use uriparse_rattle::{UriBuf, UriRef};
///
/// let page: UriBuf = "http://h/a/b".parse()?;
/// let target = page.resolve(&UriRef::parse("../c")?)?;
/// assert_eq!(target.to_string(), "http://h/c");
/// # Ok::<(), uriparse_rattle::Error>(())
/// ```
#[derive(Clone, PartialEq, Eq, Hash)]
pub struct UriBuf(UriRefBuf);

/// The string that a call writes.
pub(crate) fn written(write: Write<'_>) -> Result<String, u32> {
    let bytes = write.into_vec()?;
    Ok(String::from_utf8(bytes).expect("what is written is UTF-8"))
}

/// The reference that a call writes, or the error of its code.
fn written_reference(write: Write<'_>) -> Result<UriRefBuf, Error> {
    match written(write) {
        Ok(text) => UriRefBuf::try_from(text),
        Err(code) => Err(Error::at(code, None)),
    }
}

impl UriRef<'_> {
    /// A copy that owns its string.
    #[must_use]
    pub fn to_buf(&self) -> UriRefBuf {
        let (text, parts) = self.as_parts();
        UriRefBuf {
            text: text.into(),
            parts: *parts,
        }
    }

    /// The normal form (RFC 3986, section 6.2.2): case, percent-encoding and dot segments.
    ///
    /// A port has no leading zeros there, an empty port is omitted, an IPv6 address is as RFC 5952 writes it, and an empty path after an
    /// authority is `/`. The string doesn't keep the kind of a host: `//%31.2.3.4` has a name, and its normal form is `//1.2.3.4/`.
    ///
    /// ```
    /// use uriparse_rattle::UriRef;
    ///
    /// assert_eq!(UriRef::parse("HTTP://h/a/../%7e")?.normalize().as_str(), "http://h/~");
    /// # Ok::<(), uriparse_rattle::Error>(())
    /// ```
    #[must_use]
    pub fn normalize(&self) -> UriRefBuf {
        let text = self.as_str().as_bytes();
        written_reference(Write::Normal(text)).expect("a reference has a normal form")
    }

    /// The reference without its port, if that is the default port of its scheme (RFC 3986, section 6.2.3). All else keeps its bytes.
    ///
    /// ```
    /// use uriparse_rattle::UriRef;
    ///
    /// assert_eq!(UriRef::parse("HTTP://H:080/%7e")?.without_default_port().as_str(), "HTTP://H/%7e");
    /// assert_eq!(UriRef::parse("//h:80")?.without_default_port().as_str(), "//h:80");
    /// # Ok::<(), uriparse_rattle::Error>(())
    /// ```
    #[must_use]
    pub fn without_default_port(&self) -> UriRefBuf {
        let text = self.as_str().as_bytes();
        written_reference(Write::WithoutDefaultPort(text))
            .expect("a reference needs no default port")
    }

    /// The reference as it may be shown (RFC 3986, section 7.5), with `***` in place of its password, if it has one. All else keeps its
    /// bytes, also a secret in the query.
    ///
    /// ```
    /// use uriparse_rattle::UriRef;
    ///
    /// assert_eq!(UriRef::parse("ftp://u:secret@h/%7e")?.mask_password().as_str(), "ftp://u:***@h/%7e");
    /// # Ok::<(), uriparse_rattle::Error>(())
    /// ```
    #[must_use]
    pub fn mask_password(&self) -> UriRefBuf {
        let text = self.as_str().as_bytes();
        written_reference(Write::Masked(text)).expect("a reference takes any password")
    }

    /// The target of an HTTP request for the reference (RFC 9112, section 3.2.1): the path, or `/` in place of an empty one, and the
    /// query. `None` if the path begins without a `/`.
    ///
    /// ```
    /// use uriparse_rattle::UriRef;
    ///
    /// assert_eq!(UriRef::parse("http://h//a?b#c")?.request_target().as_deref(), Some("//a?b"));
    /// assert_eq!(UriRef::parse("mailto:a")?.request_target(), None);
    /// # Ok::<(), uriparse_rattle::Error>(())
    /// ```
    #[must_use]
    pub fn request_target(&self) -> Option<String> {
        written(Write::RequestTarget(self.as_str().as_bytes())).ok()
    }
}

impl Uri<'_> {
    /// A copy that owns its string.
    #[must_use]
    pub fn to_buf(&self) -> UriBuf {
        UriBuf(self.as_uri_ref().to_buf())
    }

    /// The normal form: see [`UriRef::normalize`].
    #[must_use]
    pub fn normalize(&self) -> UriBuf {
        UriBuf(self.as_uri_ref().normalize())
    }

    /// The URI without the default port of its scheme: see [`UriRef::without_default_port`].
    #[must_use]
    pub fn without_default_port(&self) -> UriBuf {
        UriBuf(self.as_uri_ref().without_default_port())
    }

    /// The target of an HTTP request: see [`UriRef::request_target`].
    #[must_use]
    pub fn request_target(&self) -> Option<String> {
        self.as_uri_ref().request_target()
    }

    /// The URI with `***` in place of its password: see [`UriRef::mask_password`].
    #[must_use]
    pub fn mask_password(&self) -> UriBuf {
        UriBuf(self.as_uri_ref().mask_password())
    }

    /// Resolves the reference against this base (RFC 3986, section 5.2.2, strict). The base's fragment is ignored.
    ///
    /// # Errors
    ///
    /// If the merged paths have more than 1,000,000 segments, the error is
    /// [`ExceededMaximumPathLength`](crate::ErrorKind::ExceededMaximumPathLength).
    pub fn resolve(&self, reference: &UriRef<'_>) -> Result<UriBuf, Error> {
        let texts = (self.as_str().as_bytes(), reference.as_str().as_bytes());
        written_reference(Write::Target(texts.0, texts.1)).map(UriBuf)
    }

    /// The reference that leads from this base to the URI: resolved against the base, it yields what the URI itself yields. It omits what
    /// both have in the same spelling, from the front.
    ///
    /// ```
    /// use uriparse_rattle::Uri;
    ///
    /// let base = Uri::parse("http://a/b/c/d")?;
    /// assert_eq!(base.relativize(&Uri::parse("http://a/b/g#s")?).as_str(), "../g#s");
    /// # Ok::<(), uriparse_rattle::Error>(())
    /// ```
    #[must_use]
    pub fn relativize(&self, uri: &Uri<'_>) -> UriRefBuf {
        let texts = (self.as_str().as_bytes(), uri.as_str().as_bytes());
        written_reference(Write::Relative(texts.0, texts.1)).expect("a reference leads to each URI")
    }

    /// The origin (RFC 6454): the scheme, the host and, unless it is the scheme's default one, the port. `None` if there is no host, an
    /// empty one, or no port. The string doesn't keep the kind of the host.
    ///
    /// ```
    /// use uriparse_rattle::Uri;
    ///
    /// assert_eq!(Uri::parse("HTTPS://u@EXAMPLE.com:443/b")?.origin().as_deref(), Some("https://example.com"));
    /// assert_eq!(Uri::parse("file:///a")?.origin(), None);
    /// # Ok::<(), uriparse_rattle::Error>(())
    /// ```
    #[must_use]
    pub fn origin(&self) -> Option<String> {
        written(Write::Origin(self.as_str().as_bytes())).ok()
    }
}

impl UriRefBuf {
    /// The reference, read in this string.
    #[must_use]
    pub fn as_uri_ref(&self) -> UriRef<'_> {
        UriRef::from_parts(&self.text, self.parts)
    }

    /// The string.
    #[must_use]
    pub fn as_str(&self) -> &str {
        &self.text
    }

    /// The string alone.
    #[must_use]
    pub fn into_string(self) -> String {
        self.text
    }

    /// Whether it is a URI: a reference with a scheme.
    #[must_use]
    pub fn is_uri(&self) -> bool {
        self.scheme().is_some()
    }

    optional_scheme!('_);
    components!('_);

    fn as_parts(&self) -> (&str, &Parts) {
        (&self.text, &self.parts)
    }
}

impl UriBuf {
    /// The URI, read in this string.
    #[must_use]
    pub fn as_uri(&self) -> Uri<'_> {
        Uri::with_scheme(self.0.as_uri_ref())
    }

    /// The URI as a reference, read in this string.
    #[must_use]
    pub fn as_uri_ref(&self) -> UriRef<'_> {
        self.0.as_uri_ref()
    }

    /// The string.
    #[must_use]
    pub fn as_str(&self) -> &str {
        &self.0.text
    }

    /// The string alone.
    #[must_use]
    pub fn into_string(self) -> String {
        self.0.text
    }

    /// The scheme, without its `:`.
    #[must_use]
    pub fn scheme(&self) -> &str {
        self.0.scheme().unwrap_or("")
    }

    /// Resolves the reference against this base: see [`Uri::resolve`].
    ///
    /// # Errors
    ///
    /// As for [`Uri::resolve`].
    pub fn resolve(&self, reference: &UriRef<'_>) -> Result<Self, Error> {
        self.as_uri().resolve(reference)
    }

    /// The reference that leads from this base to the URI: see [`Uri::relativize`].
    #[must_use]
    pub fn relativize(&self, uri: &Uri<'_>) -> UriRefBuf {
        self.as_uri().relativize(uri)
    }

    /// The origin: see [`Uri::origin`].
    #[must_use]
    pub fn origin(&self) -> Option<String> {
        self.as_uri().origin()
    }

    components!('_);

    fn as_parts(&self) -> (&str, &Parts) {
        self.0.as_parts()
    }
}

impl PartialEq for UriRefBuf {
    fn eq(&self, other: &Self) -> bool {
        self.as_uri_ref() == other.as_uri_ref()
    }
}

impl Eq for UriRefBuf {}

impl Hash for UriRefBuf {
    fn hash<H: Hasher>(&self, state: &mut H) {
        self.as_uri_ref().hash(state);
    }
}

impl<'a> Borrow<dyn AsUriRef + 'a> for UriRefBuf {
    fn borrow(&self) -> &(dyn AsUriRef + 'a) {
        self
    }
}

impl<'a> Borrow<dyn AsUriRef + 'a> for UriBuf {
    fn borrow(&self) -> &(dyn AsUriRef + 'a) {
        self
    }
}

impl fmt::Display for UriRefBuf {
    fn fmt(&self, f: &mut fmt::Formatter<'_>) -> fmt::Result {
        f.pad(&self.text)
    }
}

impl fmt::Debug for UriRefBuf {
    fn fmt(&self, f: &mut fmt::Formatter<'_>) -> fmt::Result {
        f.debug_tuple("UriRefBuf").field(&self.text).finish()
    }
}

impl fmt::Display for UriBuf {
    fn fmt(&self, f: &mut fmt::Formatter<'_>) -> fmt::Result {
        self.0.fmt(f)
    }
}

impl fmt::Debug for UriBuf {
    fn fmt(&self, f: &mut fmt::Formatter<'_>) -> fmt::Result {
        f.debug_tuple("UriBuf").field(&self.as_str()).finish()
    }
}

impl TryFrom<String> for UriRefBuf {
    type Error = Error;

    fn try_from(text: String) -> Result<Self, Error> {
        let parts = *UriRef::parse(&text)?.as_parts().1;
        Ok(Self { text, parts })
    }
}

impl TryFrom<String> for UriBuf {
    type Error = Error;

    fn try_from(text: String) -> Result<Self, Error> {
        let parts = *Uri::parse(&text)?.as_parts().1;
        Ok(Self(UriRefBuf { text, parts }))
    }
}

impl TryFrom<&str> for UriRefBuf {
    type Error = Error;

    fn try_from(text: &str) -> Result<Self, Error> {
        UriRef::parse(text).map(|reference| reference.to_buf())
    }
}

impl TryFrom<&str> for UriBuf {
    type Error = Error;

    fn try_from(text: &str) -> Result<Self, Error> {
        Uri::parse(text).map(|uri| uri.to_buf())
    }
}

impl FromStr for UriRefBuf {
    type Err = Error;

    fn from_str(text: &str) -> Result<Self, Error> {
        Self::try_from(text)
    }
}

impl FromStr for UriBuf {
    type Err = Error;

    fn from_str(text: &str) -> Result<Self, Error> {
        Self::try_from(text)
    }
}

/// The error is [`NotUri`](crate::ErrorKind::NotUri) if the reference has no scheme.
impl TryFrom<UriRefBuf> for UriBuf {
    type Error = Error;

    fn try_from(reference: UriRefBuf) -> Result<Self, Error> {
        if reference.scheme().is_some() {
            Ok(Self(reference))
        } else {
            Err(Error::NOT_URI)
        }
    }
}

impl From<UriBuf> for UriRefBuf {
    fn from(uri: UriBuf) -> Self {
        uri.0
    }
}

impl From<UriRefBuf> for String {
    fn from(reference: UriRefBuf) -> Self {
        reference.text
    }
}

impl From<UriBuf> for String {
    fn from(uri: UriBuf) -> Self {
        uri.0.text
    }
}

impl From<UriRef<'_>> for UriRefBuf {
    fn from(reference: UriRef<'_>) -> Self {
        reference.to_buf()
    }
}

impl From<Uri<'_>> for UriBuf {
    fn from(uri: Uri<'_>) -> Self {
        uri.to_buf()
    }
}

impl AsRef<str> for UriRefBuf {
    fn as_ref(&self) -> &str {
        &self.text
    }
}

impl AsRef<str> for UriBuf {
    fn as_ref(&self) -> &str {
        &self.0.text
    }
}
