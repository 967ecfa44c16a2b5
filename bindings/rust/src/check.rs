//! The order of references, whether one is below another or has its origin, and what hosts and segments may be taken for.

use crate::error::Error;
#[cfg(feature = "alloc")]
use crate::owned::{UriBuf, UriRefBuf};
use crate::reference::{Uri, UriRef};
use crate::sys;
#[cfg(feature = "std")]
use crate::sys::Write;
use core::cmp::Ordering;

/// The first component that differs decides, in the order scheme, authority, path, query, fragment, each in the spelling by which `==`
/// compares. An absent one is less than any that is present.
///
/// ```
/// use uriparse_rattle::UriRef;
///
/// assert!(UriRef::parse("//h:9")? < UriRef::parse("//h:10")?);
/// # Ok::<(), uriparse_rattle::Error>(())
/// ```
impl Ord for UriRef<'_> {
    fn cmp(&self, other: &Self) -> Ordering {
        sys::compare(self.as_str().as_bytes(), other.as_str().as_bytes())
    }
}

impl PartialOrd for UriRef<'_> {
    fn partial_cmp(&self, other: &Self) -> Option<Ordering> {
        Some(self.cmp(other))
    }
}

/// The order of [`UriRef`].
impl Ord for Uri<'_> {
    fn cmp(&self, other: &Self) -> Ordering {
        self.as_uri_ref().cmp(&other.as_uri_ref())
    }
}

impl PartialOrd for Uri<'_> {
    fn partial_cmp(&self, other: &Self) -> Option<Ordering> {
        Some(self.cmp(other))
    }
}

/// The order of [`UriRef`].
#[cfg(feature = "alloc")]
impl Ord for UriRefBuf {
    fn cmp(&self, other: &Self) -> Ordering {
        self.as_uri_ref().cmp(&other.as_uri_ref())
    }
}

#[cfg(feature = "alloc")]
impl PartialOrd for UriRefBuf {
    fn partial_cmp(&self, other: &Self) -> Option<Ordering> {
        Some(self.cmp(other))
    }
}

/// The order of [`UriRef`].
#[cfg(feature = "alloc")]
impl Ord for UriBuf {
    fn cmp(&self, other: &Self) -> Ordering {
        self.as_uri_ref().cmp(&other.as_uri_ref())
    }
}

#[cfg(feature = "alloc")]
impl PartialOrd for UriBuf {
    fn partial_cmp(&self, other: &Self) -> Option<Ordering> {
        Some(self.cmp(other))
    }
}

/// What is asked of a reference and its host, for a type that has `as_str`.
macro_rules! checks {
    ($name:ty) => {
        impl $name {
            /// Whether the host is the domain or a name within it: the labels, which dots separate, end with all labels of the domain. Names are
            /// compared in canonical spelling, and a dot at the end is ignored. A name with an empty label, a name with an escape in canonical
            /// spelling, an address, and a name that hides one, are within nothing but their equals. Without a host it is false.
            ///
            /// # Errors
            ///
            /// If the domain is no host, its error says why and where: `example.com:443` is wrong at byte 11.
            ///
            /// ```
            /// use uriparse_rattle::UriRef;
            ///
            /// assert!(UriRef::parse("https://WWW.Example.com/")?.host_is_within("example.com")?);
            /// assert!(!UriRef::parse("https://evilexample.com/")?.host_is_within("example.com")?);
            /// # Ok::<(), uriparse_rattle::Error>(())
            /// ```
            pub fn host_is_within(&self, domain: &str) -> Result<bool, $crate::Error> {
                $crate::sys::host_is_within(self.as_str().as_bytes(), domain.as_bytes())
                    .map_err(|code| $crate::check::domain_error(code, domain.as_bytes()))
            }

            /// Whether the host is one of several domains or a name within one, as [`host_is_within`](Self::host_is_within) says of each.
            /// Spaces separate the domains; within an empty string is no host.
            ///
            /// # Errors
            ///
            /// Each domain is read. The first that is no host has its error, with its place among all of them.
            ///
            /// ```
            /// use uriparse_rattle::UriRef;
            ///
            /// let reference = UriRef::parse("https://www.example.org/")?;
            /// assert!(reference.host_is_within_any("example.com example.org")?);
            /// assert_eq!(reference.host_is_within_any("org a:1").unwrap_err().position(), Some(5));
            /// # Ok::<(), uriparse_rattle::Error>(())
            /// ```
            pub fn host_is_within_any(&self, domains: &str) -> Result<bool, $crate::Error> {
                $crate::sys::host_is_within_any(self.as_str().as_bytes(), domains.as_bytes())
                    .map_err(|code| $crate::check::domains_error(code, domains.as_bytes()))
            }

            /// The IPv4 or IPv6 address that is the host. A name isn't looked up, and one that may be taken for an address has none.
            ///
            /// ```
            /// use std::net::{IpAddr, Ipv6Addr};
            /// use uriparse_rattle::UriRef;
            ///
            /// assert_eq!(UriRef::parse("http://[::1]/")?.host_address(), Some(IpAddr::V6(Ipv6Addr::LOCALHOST)));
            /// assert_eq!(UriRef::parse("http://127.1/")?.host_address(), None);
            /// # Ok::<(), uriparse_rattle::Error>(())
            /// ```
            #[cfg(feature = "std")]
            #[must_use]
            pub fn host_address(&self) -> Option<std::net::IpAddr> {
                $crate::check::address_of(self.as_str().as_bytes())
            }

            /// The port, or the default port of the scheme. Without an authority there is none.
            ///
            /// ```
            /// use uriparse_rattle::UriRef;
            ///
            /// assert_eq!(UriRef::parse("https://example.com/")?.port_or_default(), Some(443));
            /// assert_eq!(UriRef::parse("//example.com/")?.port_or_default(), None);
            /// # Ok::<(), uriparse_rattle::Error>(())
            /// ```
            #[must_use]
            pub fn port_or_default(&self) -> Option<u16> {
                let port = $crate::sys::port_or_default(self.as_str().as_bytes());
                core::convert::TryFrom::try_from(port).ok()
            }

            /// Whether the string is that of its normal form.
            ///
            /// ```
            /// use uriparse_rattle::UriRef;
            ///
            /// assert!(UriRef::parse("http://h/~")?.is_normalized());
            /// assert!(!UriRef::parse("http://h/%7e")?.is_normalized());
            /// # Ok::<(), uriparse_rattle::Error>(())
            /// ```
            #[must_use]
            pub fn is_normalized(&self) -> bool {
                $crate::sys::is_normalized(self.as_str().as_bytes())
            }

            /// Whether the host leads anywhere on the Internet, as far as its text says: it is a global address (RFC 6890), also if an IPv6
            /// address embeds it, or a name that no reader takes for an address or decodes. False without a host. DNS may answer for a
            /// name with any address: check that of the connection too.
            ///
            /// ```
            /// use uriparse_rattle::UriRef;
            ///
            /// assert!(UriRef::parse("http://example.com/")?.is_public());
            /// assert!(!UriRef::parse("http://[::ffff:10.0.0.1]/")?.is_public());
            /// # Ok::<(), uriparse_rattle::Error>(())
            /// ```
            #[must_use]
            pub fn is_public(&self) -> bool {
                $crate::sys::is_public(self.as_str().as_bytes())
            }

            /// Whether another reader, such as a browser or a library by the URL Standard, may read another URI in the same string for
            /// this reason.
            #[must_use]
            pub fn disagrees(&self, reason: $crate::Disagreement) -> bool {
                $crate::sys::disagreement(self.as_str().as_bytes()) & reason as u32 != 0
            }

            /// Why another reader may read another URI in the same string: the first reason. `None` if readers by the URL Standard have the
            /// same scheme, host, port, path, query and fragment and there is no user information.
            ///
            /// ```
            /// use uriparse_rattle::{Disagreement, UriRef};
            ///
            /// assert_eq!(UriRef::parse("https://example.com/a")?.disagreement(), None);
            /// assert_eq!(UriRef::parse("http:///example.com/a")?.disagreement(), Some(Disagreement::WithoutHost));
            /// # Ok::<(), uriparse_rattle::Error>(())
            /// ```
            #[must_use]
            pub fn disagreement(&self) -> Option<$crate::Disagreement> {
                let reasons = $crate::sys::disagreement(self.as_str().as_bytes());
                $crate::Disagreement::ALL
                    .into_iter()
                    .find(|reason| reasons & *reason as u32 != 0)
            }

            /// Whether the host is a name whose canonical spelling is that of an IPv4 address, as `%31.2.3.4`.
            #[must_use]
            pub fn hides_address(&self) -> bool {
                $crate::sys::host_flags(self.as_str().as_bytes()) & 1 != 0
            }

            /// Whether the host is a name whose last label begins with a digit. Resolvers take such names for addresses: `2130706433`, `0x7f.1`.
            ///
            /// ```
            /// use uriparse_rattle::UriRef;
            ///
            /// assert!(UriRef::parse("http://0x7f.1/")?.may_be_numeric());
            /// assert!(!UriRef::parse("http://127.0.0.1/")?.may_be_numeric());
            /// # Ok::<(), uriparse_rattle::Error>(())
            /// ```
            #[must_use]
            pub fn may_be_numeric(&self) -> bool {
                $crate::sys::host_flags(self.as_str().as_bytes()) & 2 != 0
            }

            /// Whether the host is a name whose canonical spelling has an escape. Some readers decode it, and then read another host:
            /// `evil.org%2F.example.com`.
            ///
            /// ```
            /// use uriparse_rattle::UriRef;
            ///
            /// assert!(UriRef::parse("http://evil.org%2F.example.com/")?.has_escapes());
            /// assert!(!UriRef::parse("http://ex%61mple.com/")?.has_escapes());
            /// # Ok::<(), uriparse_rattle::Error>(())
            /// ```
            #[must_use]
            pub fn has_escapes(&self) -> bool {
                $crate::sys::host_flags(self.as_str().as_bytes()) & 4 != 0
            }
        }
    };
}

checks!(UriRef<'_>);
checks!(Uri<'_>);
#[cfg(feature = "alloc")]
checks!(UriRefBuf);
#[cfg(feature = "alloc")]
checks!(UriBuf);

/// Why another reader, such as a browser or a library by the URL Standard, may read another URI in the same string.
#[derive(Clone, Copy, Debug, PartialEq, Eq, Hash)]
pub enum Disagreement {
    /// The scheme isn't `http`, `https`, `ws`, `wss` or `ftp`, or there is none.
    OtherScheme = 1,
    /// There is no authority, or its host is empty: `http:a.example`, `http:///a.example`.
    WithoutHost = 2,
    /// The host is an address of a later version: `[v1.a]`.
    LaterAddress = 4,
    /// The name of the host has an escape, which some readers decode.
    EscapedName = 8,
    /// The last label of the host's name begins with a digit: `0x7f.1`, `2130706433`.
    NumericName = 16,
    /// A label of the host's name begins with `xn--`.
    EncodedName = 32,
    /// A dot segment has an escape: `%2e%2e`.
    EscapedDots = 64,
    /// There is user information, which people take for the host: `https://example.com@evil.example/`.
    UserInformation = 128,
}

impl Disagreement {
    /// All of them, in the order in which `disagreement` looks for the first.
    pub const ALL: [Disagreement; 8] = [
        Disagreement::OtherScheme,
        Disagreement::WithoutHost,
        Disagreement::LaterAddress,
        Disagreement::EscapedName,
        Disagreement::NumericName,
        Disagreement::EncodedName,
        Disagreement::EscapedDots,
        Disagreement::UserInformation,
    ];
}

/// The address that is the host of a reference.
#[cfg(feature = "std")]
fn address_of(text: &[u8]) -> Option<std::net::IpAddr> {
    let mut bytes = [0; 16];
    match Write::Address(text).into_slice(&mut bytes) {
        Ok(4) => Some([bytes[0], bytes[1], bytes[2], bytes[3]].into()),
        Ok(_) => Some(bytes.into()),
        Err(_) => None,
    }
}

/// Whether readers disagree on what a segment of a path names: it has an escaped `/`, `\`, `%` or zero byte, or is `.` or `..` followed by
/// `;` or by an escaped `;`, `?` or `#`.
///
/// # Errors
///
/// A string that is no segment, as one with a `/`, has the error of a path.
///
/// ```
/// use uriparse_rattle::is_ambiguous;
///
/// assert!(is_ambiguous("..;a")? && is_ambiguous("a%2fb")?);
/// assert!(!is_ambiguous("..")?);
/// # Ok::<(), uriparse_rattle::Error>(())
/// ```
pub fn is_ambiguous(segment: &str) -> Result<bool, Error> {
    let segment = segment.as_bytes();
    sys::is_ambiguous(segment).map_err(|code| Error::at(code, segment_fault(segment)))
}

/// Where a segment is wrong: at the first byte, or `%` and what follows it, that alone is no segment.
fn segment_fault(segment: &[u8]) -> Option<usize> {
    let is_wrong = |at: &usize| {
        let len = if segment[*at] == b'%' { 3 } else { 1 };
        sys::is_ambiguous(&segment[*at..segment.len().min(at + len)]).is_err()
    };
    (0..segment.len()).find(is_wrong)
}

/// The error of a domain that isn't a host.
pub(crate) fn domain_error(code: u32, domain: &[u8]) -> Error {
    let code = code & !sys::IN_BASE;
    Error::at(code, host_fault(code, domain))
}

/// The error of the first of several domains that isn't a host.
pub(crate) fn domains_error(code: u32, domains: &[u8]) -> Error {
    let code = code & !sys::IN_BASE;
    let mut begin = 0;
    for domain in domains.split(|&byte| byte == b' ') {
        if sys::host_is_within(b"", domain).is_err() {
            return Error::at(code, host_fault(code, domain).map(|at| begin + at));
        }
        begin += domain.len() + 1;
    }
    Error::at(code, None)
}

/// Where a host is wrong, whose error has this code: at the first byte, or `%` and what follows it, that alone is no host, or is rejected
/// by an address of its kind; and an address of a wrong form at its `[`.
pub(crate) fn host_fault(code: u32, host: &[u8]) -> Option<usize> {
    let rejects = |host: &[u8]| {
        sys::host_is_within(b"//h", host).map_err(|code| code & !sys::IN_BASE) == Err(code)
    };
    let is_wrong = |at: usize| match code {
        sys::HOST_BYTE if host[at] == b'%' => rejects(&host[at..host.len().min(at + 3)]),
        sys::HOST_BYTE => rejects(&[host[at]]),
        sys::HOST_IPV6_BYTE => at > 0 && rejects(&[b'[', b':', host[at], b']']),
        sys::HOST_FUTURE_BYTE => at > 1 && rejects(&[b'[', b'v', b'1', b'.', host[at], b']']),
        _ => true,
    };
    (0..host.len()).find(|&at| is_wrong(at))
}

impl Uri<'_> {
    /// Whether the URI is below the base: the schemes are equal, the user information, the hosts and the ports too, by the scheme's default
    /// port, and the path begins, without dot segments, with the directory of the base's path. The query and the fragment don't count.
    /// It is false if a segment that servers read in different ways, such as `..;` and `a%2fb`, comes after that directory, or if a `..`
    /// removes one, or an empty one.
    ///
    /// Hand on the normal form, not the input: not every server takes `%2e%2e` for `..`.
    ///
    /// ```
    /// use uriparse_rattle::Uri;
    ///
    /// let base = Uri::parse("https://example.com/app/")?;
    /// assert!(Uri::parse("https://example.com:443/x/../app/a?b")?.is_within(&base));
    /// assert!(!Uri::parse("https://example.com/app/%2e%2e/admin")?.is_within(&base));
    /// # Ok::<(), uriparse_rattle::Error>(())
    /// ```
    #[must_use]
    pub fn is_within(&self, base: &Uri<'_>) -> bool {
        sys::is_within(self.as_str().as_bytes(), base.as_str().as_bytes())
    }

    /// Whether both have an origin and it is one (RFC 6454, section 5). A name such as `%31.2.3.4` and the address `1.2.3.4` are different
    /// hosts, although the texts of their origins are equal.
    ///
    /// ```
    /// use uriparse_rattle::Uri;
    ///
    /// let uri = Uri::parse("HTTPS://u@h:443/a")?;
    /// assert!(uri.same_origin(&Uri::parse("https://h/b")?));
    /// assert!(!uri.same_origin(&Uri::parse("http://h/b")?));
    /// # Ok::<(), uriparse_rattle::Error>(())
    /// ```
    #[must_use]
    pub fn same_origin(&self, other: &Uri<'_>) -> bool {
        sys::same_origin(self.as_str().as_bytes(), other.as_str().as_bytes())
    }
}

#[cfg(feature = "alloc")]
impl UriBuf {
    /// Whether the URI is below the base: see [`Uri::is_within`].
    #[must_use]
    pub fn is_within(&self, base: &Uri<'_>) -> bool {
        self.as_uri().is_within(base)
    }

    /// Whether both have an origin and it is one: see [`Uri::same_origin`].
    #[must_use]
    pub fn same_origin(&self, other: &Uri<'_>) -> bool {
        self.as_uri().same_origin(other)
    }
}

/// The default port of a scheme, if it has one that is known.
///
/// ```
/// assert_eq!(uriparse_rattle::default_port("https"), Some(443));
/// assert_eq!(uriparse_rattle::default_port("mailto"), None);
/// ```
#[must_use]
pub fn default_port(scheme: &str) -> Option<u16> {
    match sys::default_port(scheme.as_bytes()) {
        0 => None,
        port => u16::try_from(port).ok(),
    }
}
