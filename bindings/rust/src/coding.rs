//! Percent-encoding.

use crate::check::host_fault;
use crate::error::{Component, Error};
use crate::owned::written;
use crate::sys::{self, Write};
use alloc::string::String;
use alloc::vec::Vec;

/// A component that [`encode`] writes.
#[derive(Clone, Copy, Debug, PartialEq, Eq, Hash)]
pub enum Encoding {
    /// A user name: a `:` is encoded.
    Username = 0x10,
    /// A password.
    Password = 0x20,
    /// A segment of a path: a `/` is encoded.
    Segment = 0x50,
    /// A query: `&`, `=` and `+` stay.
    Query = 0x60,
    /// A fragment.
    Fragment = 0x70,
    /// A name or a value of a pair of a query: `&`, `=`, `+` and `*` are encoded too, so `without_pairs` takes a name as it is.
    Pair = 0x90,
}

/// Writes any bytes as a component: a byte that the component may have stays, and each other becomes an escape, `%` too. [`decode`]
/// returns the bytes again.
///
/// ```
/// use uriparse_rattle::{encode, Encoding};
///
/// assert_eq!(encode(Encoding::Segment, "a/b é"), "a%2Fb%20%C3%A9");
/// assert_eq!(encode(Encoding::Query, "R&D #1"), "R&D%20%231");
/// assert_eq!(encode(Encoding::Pair, "R&D #1"), "R%26D%20%231");
/// ```
#[must_use]
pub fn encode(encoding: Encoding, bytes: impl AsRef<[u8]>) -> String {
    written(Write::Encoded(encoding as u32, bytes.as_ref())).expect("any bytes can be encoded")
}

/// The bytes that a component stands for: each escape as its byte, each other byte as it is, so a `+` stays. Cut a query or a path at its
/// delimiters before you decode its pieces.
///
/// ```
/// use uriparse_rattle::decode;
///
/// assert_eq!(decode("R%26D")?, b"R&D");
/// assert_eq!(decode("a%2").unwrap_err().position(), Some(1));
/// # Ok::<(), uriparse_rattle::Error>(())
/// ```
///
/// # Errors
///
/// The string is that of a query, as user names, passwords, names of hosts, paths and fragments are too. The error of another string is
/// [`InvalidQueryCharacter`](crate::ErrorKind::InvalidQueryCharacter) or
/// [`InvalidQueryPercentEncoding`](crate::ErrorKind::InvalidQueryPercentEncoding).
pub fn decode(component: &str) -> Result<Vec<u8>, Error> {
    let decoded = Write::Decoded(component.as_bytes()).into_vec();
    decoded.map_err(|code| faulty_query(code, component))
}

/// The bytes that a name or a value of an HTML form stands for: as [`decode`] reads it, and a `+` is a space.
///
/// ```
/// use uriparse_rattle::form_decode;
///
/// assert_eq!(form_decode("R+%2B")?, b"R +");
/// # Ok::<(), uriparse_rattle::Error>(())
/// ```
///
/// # Errors
///
/// As for [`decode`].
pub fn form_decode(text: &str) -> Result<Vec<u8>, Error> {
    let decoded = Write::FormDecoded(text.as_bytes()).into_vec();
    decoded.map_err(|code| faulty_query(code, text))
}

/// The error of a string that isn't a query.
pub(crate) fn faulty_query(code: u32, text: &str) -> Error {
    Error::at(code, fault_in(Component::Query, code, text))
}

/// Where the string of a component is wrong by itself, by a reference that has it. There each character that would end the component is
/// replaced by one that no component has.
pub(crate) fn fault_in(component: Component, code: u32, text: &str) -> Option<usize> {
    let (before, ends, after) = match component {
        Component::Scheme if code == SCHEME_LETTER => return Some(0),
        Component::Scheme => {
            let is_part = |byte: &u8| byte.is_ascii_alphanumeric() || b"+-.".contains(byte);
            return text.bytes().position(|byte| !is_part(&byte));
        }
        Component::Host => return host_fault(code, text.as_bytes()),
        Component::Username => ("//", "/?#@:[]", "@"),
        Component::Password => ("//:", "/?#@[]", "@"),
        Component::Port => ("//:", "/?#@:[]", ""),
        Component::Path => ("//h/", "?#", ""),
        Component::Query => ("?", "#", ""),
        Component::Fragment => ("#", "", ""),
    };
    let reference = [before, &text.replace(|one| ends.contains(one), "^"), after].concat();
    let fault = sys::first_fault(reference.as_bytes())?;
    Some(fault.1 - before.len())
}

/// The code of a scheme whose first byte is no letter.
const SCHEME_LETTER: u32 = 0x82;

/// Makes a reference of any string: what RFC 3986 doesn't allow in its place is percent-encoded, except the delimiters of an authority;
/// all else stays. Characters that aren't ASCII become the escapes of their UTF-8, also in a host. A `%` without two hexadecimal digits
/// becomes `%25`. The result may still be rejected: for its authority, for too many segments, or for a colon in its first segment.
///
/// ```
/// use uriparse_rattle::escape;
///
/// assert_eq!(escape("http://h/ü b?100%"), "http://h/%C3%BC%20b?100%25");
/// ```
#[must_use]
pub fn escape(text: &str) -> String {
    written(Write::Escaped(text.as_bytes())).expect("any string can be escaped")
}

/// The reference in a string that was cut out of a page or a letter (RFC 3986, appendix C): the string without the white space at its ends,
/// a pair of angle brackets, the white space in these, and the prefix `URL:` there. Any string is accepted.
///
/// ```
/// use uriparse_rattle::trim_link;
///
/// assert_eq!(trim_link(" <URL: http://h/>\n"), "http://h/");
/// ```
#[must_use]
pub fn trim_link(text: &str) -> String {
    written(Write::Trimmed(text.as_bytes())).expect("any string can be trimmed")
}
