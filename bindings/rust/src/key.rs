//! Look-ups of owned keys by references that are read in other strings.

use crate::owned::{UriBuf, UriRefBuf};
use crate::reference::{Uri, UriRef};
use core::cmp::Ordering;
use core::hash::{Hash, Hasher};

/// What is a reference. A map or a set of [`UriRefBuf`] or [`UriBuf`] finds its keys by any of them, as `&dyn AsUriRef`, without a copy.
///
/// ```
/// use std::collections::HashMap;
/// use uriparse_rattle::{AsUriRef, UriRef, UriRefBuf};
///
/// let mut titles = HashMap::new();
/// titles.insert("http://h/~".parse::<UriRefBuf>()?, "Home");
/// let link = UriRef::parse("HTTP://h/%7e")?;
/// assert_eq!(titles.get(&link as &dyn AsUriRef), Some(&"Home"));
/// # Ok::<(), uriparse_rattle::Error>(())
/// ```
pub trait AsUriRef {
    /// The reference, read in its string.
    fn as_uri_ref(&self) -> UriRef<'_>;
}

impl AsUriRef for UriRef<'_> {
    fn as_uri_ref(&self) -> UriRef<'_> {
        *self
    }
}

impl AsUriRef for Uri<'_> {
    fn as_uri_ref(&self) -> UriRef<'_> {
        Uri::as_uri_ref(self)
    }
}

impl AsUriRef for UriRefBuf {
    fn as_uri_ref(&self) -> UriRef<'_> {
        UriRefBuf::as_uri_ref(self)
    }
}

impl AsUriRef for UriBuf {
    fn as_uri_ref(&self) -> UriRef<'_> {
        UriBuf::as_uri_ref(self)
    }
}

impl PartialEq for dyn AsUriRef + '_ {
    fn eq(&self, other: &Self) -> bool {
        self.as_uri_ref() == other.as_uri_ref()
    }
}

impl Eq for dyn AsUriRef + '_ {}

impl PartialOrd for dyn AsUriRef + '_ {
    fn partial_cmp(&self, other: &Self) -> Option<Ordering> {
        Some(self.cmp(other))
    }
}

impl Ord for dyn AsUriRef + '_ {
    fn cmp(&self, other: &Self) -> Ordering {
        self.as_uri_ref().cmp(&other.as_uri_ref())
    }
}

impl Hash for dyn AsUriRef + '_ {
    fn hash<H: Hasher>(&self, state: &mut H) {
        self.as_uri_ref().hash(state);
    }
}
