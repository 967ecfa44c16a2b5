//! Why a string is rejected.

use crate::sys;
use core::fmt;

/// A component of a reference, as errors name it.
#[derive(Clone, Copy, Debug, PartialEq, Eq, Hash)]
#[non_exhaustive]
pub enum Component {
    /// The user name, before the first `:` of the user information.
    Username,
    /// The password, after that colon.
    Password,
    /// The host.
    Host,
    /// The port.
    Port,
    /// The path.
    Path,
    /// The query.
    Query,
    /// The fragment.
    Fragment,
    /// The scheme.
    Scheme,
}

/// What is wrong with a string. It prints in the words of `uriparse`.
#[derive(Clone, Copy, Debug, PartialEq, Eq, Hash)]
#[non_exhaustive]
pub enum ErrorKind {
    // codes.tsv: kinds
    /// There is no scheme where a URI is expected, also in `1:2`.
    NotUri,
    /// Without a scheme, a colon precedes the path's first slash: `1:2`.
    SchemelessPathStartsWithColonSegment,
    /// A path has more than 1,000,000 segments: that of the string, or that of a target.
    ExceededMaximumPathLength,
    /// Without an authority, the path of a changed reference would start with `//`.
    AbsolutePathStartsWithTwoSlashes,
    /// A change sets a user name, a password or a port of a reference without a host.
    MissingHost,
    /// The names of pairs are not a query.
    InvalidNames,
    /// A colon in a user name that is set.
    UsernameContainsColon,
    /// A byte that no user name has.
    InvalidUsernameCharacter,
    /// A `%` in the user name that two hexadecimal digits don't follow.
    InvalidUsernamePercentEncoding,
    /// A byte that no password has.
    InvalidPasswordCharacter,
    /// A `%` in the password that two hexadecimal digits don't follow.
    InvalidPasswordPercentEncoding,
    /// A byte that no name of a host has, or a `%` that two hexadecimal digits don't follow.
    InvalidHostCharacter,
    /// In brackets, a byte that no IPv6 address has.
    InvalidIpv6Character,
    /// In brackets, no form of an IPv6 address.
    InvalidIpv6Format,
    /// In brackets, after `v`, a byte that no address of a later version has.
    InvalidIpvFutureCharacter,
    /// In brackets, after `v`, no form of such an address.
    InvalidIpvFutureFormat,
    /// A byte of the port that is no digit.
    InvalidPortCharacter,
    /// The port is above 65535.
    PortOverflow,
    /// A byte that no path has.
    InvalidPathCharacter,
    /// A `%` in the path that two hexadecimal digits don't follow.
    InvalidPathPercentEncoding,
    /// A byte that no query has.
    InvalidQueryCharacter,
    /// A `%` in the query that two hexadecimal digits don't follow.
    InvalidQueryPercentEncoding,
    /// A byte that no fragment has.
    InvalidFragmentCharacter,
    /// A `%` in the fragment that two hexadecimal digits don't follow.
    InvalidFragmentPercentEncoding,
    /// A scheme that is set is empty.
    SchemeIsEmpty,
    /// A byte that no scheme has.
    InvalidSchemeCharacter,
    /// The first byte of a scheme that is set is no letter.
    SchemeStartsWithNonAlphabetic,
    // codes.tsv: end
    /// A code of `uriparse.h` that this version of the crate doesn't know.
    Unknown(u32),
}

/// The code of each kind in `uriparse.h`, its component and its words.
#[rustfmt::skip]
const KINDS: &[(u32, ErrorKind, Component, &str)] = {
    use ErrorKind::*;
    &[
        // codes.tsv: words
        (0x03, NotUri, Component::Scheme, "not URI"),
        (0x04, SchemelessPathStartsWithColonSegment, Component::Path, "schemeless path URI reference starts with colon segment"),
        (0x05, ExceededMaximumPathLength, Component::Path, "exceeded maximum path length"),
        (0x06, AbsolutePathStartsWithTwoSlashes, Component::Path, "absolute path URI reference starts with two slashes"),
        (0x0b, MissingHost, Component::Host, "user name, password or port without a host"),
        (0x0d, InvalidNames, Component::Query, "invalid names of pairs"),
        (0x10, UsernameContainsColon, Component::Username, "username contains a colon character"),
        (0x11, InvalidUsernameCharacter, Component::Username, "invalid username character"),
        (0x12, InvalidUsernamePercentEncoding, Component::Username, "invalid username percent encoding"),
        (0x21, InvalidPasswordCharacter, Component::Password, "invalid password character"),
        (0x22, InvalidPasswordPercentEncoding, Component::Password, "invalid password percent encoding"),
        (0x31, InvalidHostCharacter, Component::Host, "invalid host IPv4 or registered name character"),
        (0x32, InvalidIpv6Character, Component::Host, "invalid host IPv6 character"),
        (0x33, InvalidIpv6Format, Component::Host, "invalid host IPv6 format"),
        (0x34, InvalidIpvFutureCharacter, Component::Host, "invalid host IPvFuture character"),
        (0x35, InvalidIpvFutureFormat, Component::Host, "invalid host IPvFuture format"),
        (0x41, InvalidPortCharacter, Component::Port, "invalid port character"),
        (0x42, PortOverflow, Component::Port, "port overflow"),
        (0x51, InvalidPathCharacter, Component::Path, "invalid path character"),
        (0x52, InvalidPathPercentEncoding, Component::Path, "invalid path percent encoding"),
        (0x61, InvalidQueryCharacter, Component::Query, "invalid query character"),
        (0x62, InvalidQueryPercentEncoding, Component::Query, "invalid query percent encoding"),
        (0x71, InvalidFragmentCharacter, Component::Fragment, "invalid fragment character"),
        (0x72, InvalidFragmentPercentEncoding, Component::Fragment, "invalid fragment percent encoding"),
        (0x80, SchemeIsEmpty, Component::Scheme, "scheme is empty"),
        (0x81, InvalidSchemeCharacter, Component::Scheme, "invalid scheme character"),
        (0x82, SchemeStartsWithNonAlphabetic, Component::Scheme, "scheme starts with non-alphabetic character"),
        // codes.tsv: end
    ]
};

impl ErrorKind {
    fn of(code: u32) -> Self {
        KINDS
            .iter()
            .find(|kind| kind.0 == code)
            .map_or(Self::Unknown(code), |kind| kind.1)
    }

    /// The number of the kind in `uriparse.h`.
    #[must_use]
    pub fn code(self) -> u32 {
        match self {
            Self::Unknown(code) => code,
            _ => KINDS
                .iter()
                .find(|kind| kind.1 == self)
                .map_or(0, |kind| kind.0),
        }
    }

    /// The component that the error is about, if it is one: also the scheme that is missing, the path with too many segments, and the
    /// host that a change needs.
    #[must_use]
    pub fn component(self) -> Option<Component> {
        if let Some(kind) = KINDS.iter().find(|kind| kind.1 == self) {
            return Some(kind.2);
        }
        match self.code() & 0xf0 {
            0x10 => Some(Component::Username),
            0x20 => Some(Component::Password),
            0x30 => Some(Component::Host),
            0x40 => Some(Component::Port),
            0x50 => Some(Component::Path),
            0x60 => Some(Component::Query),
            0x70 => Some(Component::Fragment),
            0x80 => Some(Component::Scheme),
            _ => None,
        }
    }
}

impl fmt::Display for ErrorKind {
    fn fmt(&self, f: &mut fmt::Formatter<'_>) -> fmt::Result {
        match KINDS.iter().find(|kind| kind.1 == *self) {
            Some((_, _, _, words)) => f.pad(words),
            None => write!(f, "error {:#x}", self.code()),
        }
    }
}

/// Why a string is rejected, and where.
///
/// If several components are wrong, the error is that of the authority, else of the path, the colon rule, the query, the fragment; and
/// within each of these the leftmost one.
///
/// ```
/// use uriparse_rattle::{Component, ErrorKind, UriRef};
///
/// let error = UriRef::parse("http://h/a b").unwrap_err();
/// assert_eq!(error.kind(), ErrorKind::InvalidPathCharacter);
/// assert_eq!(error.component(), Some(Component::Path));
/// assert_eq!(error.position(), Some(10));
/// assert_eq!(error.to_string(), "invalid path character at byte 10");
///
/// let error = uriparse_rattle::Uri::parse("/a").unwrap_err();
/// assert_eq!((error.position(), error.to_string().as_str()), (None, "not URI"));
/// ```
#[derive(Clone, Copy, Debug, PartialEq, Eq, Hash)]
pub struct Error {
    kind: ErrorKind,
    position: Option<usize>,
}

impl Error {
    /// A string without a scheme where a URI is expected.
    pub(crate) const NOT_URI: Self = Self {
        kind: ErrorKind::NotUri,
        position: None,
    };

    /// The error with this code of a string, at the string's first fault if it has one.
    pub(crate) fn new(code: u32, text: &[u8]) -> Self {
        Self::at(code, sys::first_fault(text).map(|fault| fault.1))
    }

    /// The error with this code, and how many bytes of the string that it is about precede the first wrong one, if one is wrong.
    pub(crate) fn at(code: u32, position: Option<usize>) -> Self {
        Self {
            kind: ErrorKind::of(code),
            position,
        }
    }

    /// What is wrong.
    #[must_use]
    pub fn kind(&self) -> ErrorKind {
        self.kind
    }

    /// How many bytes precede the first fault of the string that is rejected: the input, a domain, the names of pairs, or the value that a
    /// change sets.
    ///
    /// The position of a wrong byte is its own, of an escape without two digits that of its `%`, of one segment too many that of the
    /// slash before it. An address of a wrong form is wrong at its `[`, a port that is too large at its first digit, and a path with a
    /// colon where none may be at its first byte. It is `None` if no byte is wrong by itself: the string has no scheme, the target of two
    /// strings has too many segments, or a value can't stand where a change puts it.
    #[must_use]
    pub fn position(&self) -> Option<usize> {
        self.position
    }

    /// The component that the error is about: see [`ErrorKind::component`].
    #[must_use]
    pub fn component(&self) -> Option<Component> {
        self.kind.component()
    }
}

impl fmt::Display for Error {
    fn fmt(&self, f: &mut fmt::Formatter<'_>) -> fmt::Result {
        match self.position {
            Some(position) => write!(f, "{} at byte {position}", self.kind),
            None => self.kind.fmt(f),
        }
    }
}

/// Why nothing is written to a buffer.
#[derive(Clone, Copy, Debug, PartialEq, Eq, Hash)]
#[non_exhaustive]
pub enum BufferError {
    /// The buffer is too small.
    TooSmall {
        /// How many bytes are enough.
        needed: usize,
    },
    /// The path of the target has more than 1,000,000 segments.
    TooManySegments,
}

impl BufferError {
    /// The error of a call that returned this code, and how many bytes are enough for what it writes.
    pub(crate) fn of((code, needed): (u32, usize)) -> Self {
        match code {
            sys::NO_ROOM => Self::TooSmall { needed },
            _ => Self::TooManySegments,
        }
    }
}

impl fmt::Display for BufferError {
    fn fmt(&self, f: &mut fmt::Formatter<'_>) -> fmt::Result {
        match self {
            Self::TooSmall { needed } => write!(f, "buffer too small: {needed} bytes are enough"),
            Self::TooManySegments => f.pad("merged path with too many segments"),
        }
    }
}

#[cfg(feature = "std")]
impl std::error::Error for Error {}

#[cfg(feature = "std")]
impl std::error::Error for BufferError {}
