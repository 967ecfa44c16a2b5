//! Sort keys: strings that are equal and ordered as references are.

use crate::error::BufferError;
#[cfg(feature = "alloc")]
use crate::owned;
use crate::reference::{written, Uri, UriRef};
use crate::sys::Write;
#[cfg(feature = "alloc")]
use alloc::string::String;

/// What a sort key is of.
///
/// ```
/// use uriparse_rattle::{KeyForm, UriRef};
///
/// let key = |text| Ok::<_, uriparse_rattle::Error>(UriRef::parse(text)?.key(KeyForm::PAGE));
/// assert_eq!(key("HTTP://h:80/a/../%7e#b")?, key("http://h/~")?);
/// # Ok::<(), uriparse_rattle::Error>(())
/// ```
#[derive(Clone, Copy, Debug, Default, PartialEq, Eq, Hash)]
pub struct KeyForm {
    /// Of the normal form, whose dot segments are removed. The kind of the host stays.
    pub normalized: bool,
    /// Without a port that is the scheme's default port.
    pub without_default_port: bool,
    /// Without the fragment.
    pub without_fragment: bool,
}

impl KeyForm {
    /// The reference as it is: keys are equal exactly if references are.
    pub const EXACT: Self = Self {
        normalized: false,
        without_default_port: false,
        without_fragment: false,
    };

    /// The page that a reference leads to: its normal form without a default port and a fragment.
    pub const PAGE: Self = Self {
        normalized: true,
        without_default_port: true,
        without_fragment: true,
    };

    fn flags(self) -> u32 {
        u32::from(self.normalized)
            | u32::from(self.without_default_port) << 1
            | u32::from(self.without_fragment) << 2
    }
}

impl UriRef<'_> {
    /// Writes the sort key to the buffer: see [`key`](Self::key). What follows it there is unchanged.
    ///
    /// # Errors
    ///
    /// If the buffer is too small, the error says how many bytes are enough, and nothing is written.
    pub fn key_into<'o>(&self, form: KeyForm, out: &'o mut [u8]) -> Result<&'o str, BufferError> {
        written(out, Write::Key(form.flags(), self.as_str().as_bytes()))
    }

    /// The sort key: characters from U+0001 to U+007E that are equal exactly if references are, and ordered as these are. Nothing reads a
    /// key back.
    ///
    /// ```
    /// use uriparse_rattle::{KeyForm, UriRef};
    ///
    /// let (nine, ten) = (UriRef::parse("//h:9")?, UriRef::parse("//h:10")?);
    /// assert!(nine < ten && nine.key(KeyForm::EXACT) < ten.key(KeyForm::EXACT));
    /// # Ok::<(), uriparse_rattle::Error>(())
    /// ```
    #[cfg(feature = "alloc")]
    #[must_use]
    pub fn key(&self, form: KeyForm) -> String {
        let write = Write::Key(form.flags(), self.as_str().as_bytes());
        owned::written(write).expect("a reference has a key")
    }
}

impl Uri<'_> {
    /// The sort key: see [`UriRef::key`].
    #[cfg(feature = "alloc")]
    #[must_use]
    pub fn key(&self, form: KeyForm) -> String {
        self.as_uri_ref().key(form)
    }
}
