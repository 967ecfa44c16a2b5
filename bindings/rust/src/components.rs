//! The accessors of components, which the four types have in common.

use crate::reference::HostKind;
use crate::sys::Parts;
use core::convert::TryFrom;

/// The components, for a type that has `as_parts`: its string and where they are in it.
macro_rules! components {
    ($life:lifetime) => {
        /// The authority: the user information, the host and the port, as in `user:password@example.com:80`.
        #[must_use]
        pub fn authority(&self) -> Option<&$life str> {
            let (text, parts) = self.as_parts();
            parts.authority.of(text)
        }

        /// The user name: what precedes the first `:` of the user information.
        #[must_use]
        pub fn username(&self) -> Option<&$life str> {
            let (text, parts) = self.as_parts();
            parts.username.of(text)
        }

        /// The password: what follows the first `:` of the user information.
        #[must_use]
        pub fn password(&self) -> Option<&$life str> {
            let (text, parts) = self.as_parts();
            parts.password.of(text)
        }

        /// The host, which is present if the authority is. An IPv6 address has its brackets.
        #[must_use]
        pub fn host(&self) -> Option<&$life str> {
            let (text, parts) = self.as_parts();
            parts.host.of(text)
        }

        /// The kind of the host. The name `%31.2.3.4` is a name, but in the normal form it reads as an address.
        #[must_use]
        pub fn host_kind(&self) -> Option<$crate::HostKind> {
            $crate::components::host_kind(self.as_parts().1)
        }

        /// The digits of the port, which may be none: `h:`.
        #[must_use]
        pub fn port(&self) -> Option<&$life str> {
            let (text, parts) = self.as_parts();
            parts.port.of(text)
        }

        /// The number of the port, if it has digits.
        #[must_use]
        pub fn port_number(&self) -> Option<u16> {
            $crate::components::port_number(self.as_parts())
        }

        /// The path, which may be empty.
        #[must_use]
        pub fn path(&self) -> &$life str {
            let (text, parts) = self.as_parts();
            parts.path.of(text).unwrap_or("")
        }

        /// The segments of the path, as they stand there. A leading `/` has none before it.
        #[must_use]
        pub fn segments(&self) -> $crate::Segments<$life> {
            $crate::pairs::Segments::new(self.path())
        }

        /// The query, without its `?`.
        #[must_use]
        pub fn query(&self) -> Option<&$life str> {
            let (text, parts) = self.as_parts();
            parts.query.of(text)
        }

        /// The pairs of the query, as `name=value`. There is none if the query is absent.
        #[must_use]
        pub fn query_pairs(&self) -> $crate::Pairs<$life> {
            $crate::pairs::Pairs::of(self.query())
        }

        /// The fragment, without its `#`.
        #[must_use]
        pub fn fragment(&self) -> Option<&$life str> {
            let (text, parts) = self.as_parts();
            parts.fragment.of(text)
        }
    };
}

/// The scheme, for a type that has `as_parts`.
macro_rules! optional_scheme {
    ($life:lifetime) => {
        /// The scheme, without its `:`.
        #[must_use]
        pub fn scheme(&self) -> Option<&$life str> {
            let (text, parts) = self.as_parts();
            parts.scheme.of(text)
        }
    };
}

pub(crate) fn host_kind(parts: &Parts) -> Option<HostKind> {
    match parts.host_kind {
        1 => Some(HostKind::Name),
        4 => Some(HostKind::Ipv4),
        6 => Some(HostKind::Ipv6),
        7 => Some(HostKind::IpvFuture),
        _ => None,
    }
}

pub(crate) fn port_number((text, parts): (&str, &Parts)) -> Option<u16> {
    match parts.port.of(text) {
        None | Some("") => None,
        Some(_) => u16::try_from(parts.port_number).ok(),
    }
}
