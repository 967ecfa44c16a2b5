//! Components that are changed, and pairs by name.

use crate::coding::{decode, encode, fault_in, faulty_query, Encoding};
use crate::error::{Component, Error, ErrorKind};
use crate::owned::{written, UriBuf, UriRefBuf};
use crate::reference::{Uri, UriRef};
use crate::sys::{self, Paired, Value, Values, Write};
use alloc::string::String;
use alloc::vec::Vec;
use core::convert::TryFrom;

/// What becomes of a component.
#[derive(Clone, Copy, Debug, Default, PartialEq, Eq)]
pub enum Change<'a> {
    /// It keeps its bytes, or its absence.
    #[default]
    Keep,
    /// It becomes this string, without delimiters.
    Set(&'a str),
    /// It is absent; a path is empty.
    Remove,
}

/// What becomes of each component. By default each is kept.
///
/// ```
/// use uriparse_rattle::{Change, Changes, UriRef};
///
/// let changes = Changes {
///     host: Change::Set("example.org"),
///     username: Change::Remove,
///     ..Changes::default()
/// };
/// let reference = UriRef::parse("HTTP://u:p@h:8080/%7Ea?q#f")?;
/// assert_eq!(reference.change(&changes)?.as_str(), "HTTP://example.org:8080/%7Ea?q#f");
/// # Ok::<(), uriparse_rattle::Error>(())
/// ```
#[derive(Clone, Copy, Debug, Default, PartialEq, Eq)]
#[allow(missing_docs)]
pub struct Changes<'a> {
    pub scheme: Change<'a>,
    pub username: Change<'a>,
    pub password: Change<'a>,
    pub host: Change<'a>,
    pub port: Change<'a>,
    pub path: Change<'a>,
    pub query: Change<'a>,
    pub fragment: Change<'a>,
}

/// An absent component of a reference removes it.
impl<'a> From<Option<&'a str>> for Change<'a> {
    fn from(component: Option<&'a str>) -> Self {
        component.map_or(Self::Remove, Self::Set)
    }
}

impl Changes<'_> {
    /// The error with this code, at the first wrong byte of the value that is wrong, if one is wrong by itself.
    fn error(&self, code: u32) -> Error {
        let error = Error::at(code, None);
        let change = match error.component() {
            _ if error.kind() == ErrorKind::MissingHost => return error,
            Some(Component::Scheme) => self.scheme,
            Some(Component::Username) => self.username,
            Some(Component::Password) => self.password,
            Some(Component::Host) => self.host,
            Some(Component::Port) => self.port,
            Some(Component::Path) => self.path,
            Some(Component::Query) => self.query,
            Some(Component::Fragment) => self.fragment,
            None => return error,
        };
        match (error.component(), change) {
            (Some(component), Change::Set(value)) => {
                Error::at(code, fault_in(component, code, value))
            }
            _ => error,
        }
    }

    /// What the library for C is told, and the strings that components become.
    fn values(&self) -> (Values, String) {
        let mut text = String::new();
        let mut value = |change| match change {
            Change::Keep => Value::default(),
            Change::Remove => Value::REMOVE,
            Change::Set(string) => {
                let begin = text.len();
                text.push_str(string);
                Value::set(begin, text.len())
            }
        };
        let values = [
            value(self.scheme),
            value(self.username),
            value(self.password),
            value(self.host),
            value(self.port),
            value(self.path),
            value(self.query),
            value(self.fragment),
        ];
        (values, text)
    }
}

impl UriRef<'_> {
    /// The reference with some components changed, all at once. What is kept keeps its bytes.
    ///
    /// Setting the host makes an authority, and removing it removes the authority. Setting a password brings an empty user name, and
    /// removing the user name removes a password that is kept. A path that isn't empty gets a leading slash after an authority.
    ///
    /// # Errors
    ///
    /// [`MissingHost`](crate::ErrorKind::MissingHost), or the error of the first component of the result.
    pub fn change(&self, changes: &Changes<'_>) -> Result<UriRefBuf, Error> {
        let (values, text) = changes.values();
        match written(Write::Changed(
            self.as_str().as_bytes(),
            &values,
            text.as_bytes(),
        )) {
            Ok(text) => UriRefBuf::try_from(text),
            Err(code) => Err(changes.error(code)),
        }
    }

    /// The decoded value of the first pair of the query with this name; empty for a pair without an `=`. Names are compared by the bytes
    /// that they stand for.
    ///
    /// ```
    /// use uriparse_rattle::UriRef;
    ///
    /// assert_eq!(UriRef::parse("?q=R%26D&all")?.pair("q").as_deref(), Some(&b"R&D"[..]));
    /// # Ok::<(), uriparse_rattle::Error>(())
    /// ```
    #[must_use]
    pub fn pair(&self, name: &str) -> Option<Vec<u8>> {
        let query = self.query()?;
        let pair = sys::find_pair(query.as_bytes(), name.as_bytes())?;
        decode(pair.value.of(query).unwrap_or("")).ok()
    }

    /// The decoded values of all pairs of the query with this name, in order, each as [`pair`](Self::pair) returns it.
    ///
    /// ```
    /// use uriparse_rattle::UriRef;
    ///
    /// let reference = UriRef::parse("?a=1&b&%61=%26&a")?;
    /// assert_eq!(reference.pair_values("a"), [&b"1"[..], b"&", b""]);
    /// # Ok::<(), uriparse_rattle::Error>(())
    /// ```
    #[must_use]
    pub fn pair_values(&self, name: &str) -> Vec<Vec<u8>> {
        let (mut values, mut at) = (Vec::new(), 0);
        let query = match self.query() {
            Some(query) => query,
            None => return values,
        };
        while let Some(pair) = sys::find_next_pair(query.as_bytes(), at, name.as_bytes()) {
            at = pair.next;
            values.extend(decode(pair.value.of(query).unwrap_or("")));
        }
        values
    }

    /// The reference with one pair of this name in its query, in place of the first one; the others of the name are left out. Name and
    /// value are data: [`pair`](Self::pair) reads them back. With `None` there is no `=`. Other pairs keep their bytes.
    ///
    /// ```
    /// use uriparse_rattle::UriRef;
    ///
    /// let reference = UriRef::parse("http://h/?p=1&lang=de&%70=2#f")?;
    /// assert_eq!(reference.with_pair("p", Some("a&b")).as_str(), "http://h/?p=a%26b&lang=de#f");
    /// # Ok::<(), uriparse_rattle::Error>(())
    /// ```
    #[must_use]
    pub fn with_pair(&self, name: &str, value: Option<&str>) -> UriRefBuf {
        self.paired(name, value, false)
    }

    /// The reference with a pair after all others of its query.
    #[must_use]
    pub fn with_appended_pair(&self, name: &str, value: Option<&str>) -> UriRefBuf {
        self.paired(name, value, true)
    }

    /// The reference without the pairs of some names, and without the query if none is left. The names are written like a query, and one
    /// that ends in `*` stands for each that begins with what precedes it.
    ///
    /// # Errors
    ///
    /// [`InvalidNames`](crate::ErrorKind::InvalidNames) if the names are no query.
    ///
    /// ```
    /// use uriparse_rattle::UriRef;
    ///
    /// let reference = UriRef::parse("http://h/?utm_id=1&q=%2f&gclid")?;
    /// assert_eq!(reference.without_pairs("utm_*&gclid")?.as_str(), "http://h/?q=%2f");
    /// # Ok::<(), uriparse_rattle::Error>(())
    /// ```
    pub fn without_pairs(&self, names: &str) -> Result<UriRefBuf, Error> {
        let query = self.query().unwrap_or("");
        match written(Write::WithoutPairs(query.as_bytes(), names.as_bytes())) {
            Ok(query) if self.query().is_some() => Ok(self.with_query(Change::Set(&query))),
            Ok(_) | Err(sys::NO_PAIRS) => Ok(self.with_query(Change::Remove)),
            Err(code) => Err(faulty_query(code, names)),
        }
    }

    /// The reference without the pairs of this name, and without the query if none is left. The name is data: a `*` is one of the name.
    ///
    /// ```
    /// use uriparse_rattle::UriRef;
    ///
    /// let reference = UriRef::parse("?a%26b=1&a&b")?;
    /// assert_eq!(reference.without_pair("a&b").as_str(), "?a&b");
    /// # Ok::<(), uriparse_rattle::Error>(())
    /// ```
    #[must_use]
    pub fn without_pair(&self, name: &str) -> UriRefBuf {
        let names = encode(Encoding::Pair, name);
        self.without_pairs(&names)
            .expect("what is encoded is a query")
    }

    fn paired(&self, name: &str, value: Option<&str>, is_appended: bool) -> UriRefBuf {
        let query = written(Write::WithPair(Paired {
            query: self.query().unwrap_or("").as_bytes(),
            name: name.as_bytes(),
            value: value.map(str::as_bytes),
            is_appended,
        }));
        self.with_query(Change::Set(&query.expect("a query takes any pair")))
    }

    /// The reference with this query, or without one.
    fn with_query(&self, query: Change<'_>) -> UriRefBuf {
        let changes = Changes {
            query,
            ..Changes::default()
        };
        self.change(&changes).expect("a reference takes any query")
    }
}

impl Uri<'_> {
    /// The URI with some components changed: see [`UriRef::change`].
    ///
    /// # Errors
    ///
    /// As for [`UriRef::change`], and [`NotUri`](crate::ErrorKind::NotUri) if the scheme is removed.
    pub fn change(&self, changes: &Changes<'_>) -> Result<UriBuf, Error> {
        self.as_uri_ref().change(changes).and_then(UriBuf::try_from)
    }

    /// The decoded value of the first pair of this name: see [`UriRef::pair`].
    #[must_use]
    pub fn pair(&self, name: &str) -> Option<Vec<u8>> {
        self.as_uri_ref().pair(name)
    }

    /// The decoded values of all pairs of this name: see [`UriRef::pair_values`].
    #[must_use]
    pub fn pair_values(&self, name: &str) -> Vec<Vec<u8>> {
        self.as_uri_ref().pair_values(name)
    }

    /// The URI with one pair of this name: see [`UriRef::with_pair`].
    #[must_use]
    pub fn with_pair(&self, name: &str, value: Option<&str>) -> UriBuf {
        of_uri(self.as_uri_ref().with_pair(name, value))
    }

    /// The URI with a pair after all others: see [`UriRef::with_appended_pair`].
    #[must_use]
    pub fn with_appended_pair(&self, name: &str, value: Option<&str>) -> UriBuf {
        of_uri(self.as_uri_ref().with_appended_pair(name, value))
    }

    /// The URI without the pairs of some names: see [`UriRef::without_pairs`].
    ///
    /// # Errors
    ///
    /// [`InvalidNames`](crate::ErrorKind::InvalidNames) if the names are no query.
    pub fn without_pairs(&self, names: &str) -> Result<UriBuf, Error> {
        self.as_uri_ref().without_pairs(names).map(of_uri)
    }

    /// The URI without the pairs of this name: see [`UriRef::without_pair`].
    #[must_use]
    pub fn without_pair(&self, name: &str) -> UriBuf {
        of_uri(self.as_uri_ref().without_pair(name))
    }
}

/// The edits of a type that owns its string, which are those of its view.
macro_rules! edits {
    ($name:ident, $view:ident) => {
        impl $name {
            /// The same with some components changed: see [`UriRef::change`].
            ///
            /// # Errors
            ///
            /// As for [`UriRef::change`] and [`Uri::change`].
            pub fn change(&self, changes: &Changes<'_>) -> Result<Self, Error> {
                self.$view().change(changes)
            }

            /// The decoded value of the first pair of this name: see [`UriRef::pair`].
            #[must_use]
            pub fn pair(&self, name: &str) -> Option<Vec<u8>> {
                self.$view().pair(name)
            }

            /// The decoded values of all pairs of this name: see [`UriRef::pair_values`].
            #[must_use]
            pub fn pair_values(&self, name: &str) -> Vec<Vec<u8>> {
                self.$view().pair_values(name)
            }

            /// The same with one pair of this name: see [`UriRef::with_pair`].
            #[must_use]
            pub fn with_pair(&self, name: &str, value: Option<&str>) -> Self {
                self.$view().with_pair(name, value)
            }

            /// The same with a pair after all others: see [`UriRef::with_appended_pair`].
            #[must_use]
            pub fn with_appended_pair(&self, name: &str, value: Option<&str>) -> Self {
                self.$view().with_appended_pair(name, value)
            }

            /// The same without the pairs of some names: see [`UriRef::without_pairs`].
            ///
            /// # Errors
            ///
            /// [`InvalidNames`](crate::ErrorKind::InvalidNames) if the names are no query.
            pub fn without_pairs(&self, names: &str) -> Result<Self, Error> {
                self.$view().without_pairs(names)
            }

            /// The same without the pairs of this name: see [`UriRef::without_pair`].
            #[must_use]
            pub fn without_pair(&self, name: &str) -> Self {
                self.$view().without_pair(name)
            }

            /// The normal form: see [`UriRef::normalize`].
            #[must_use]
            pub fn normalize(&self) -> Self {
                self.$view().normalize()
            }

            /// The same without the default port of its scheme: see [`UriRef::without_default_port`].
            #[must_use]
            pub fn without_default_port(&self) -> Self {
                self.$view().without_default_port()
            }

            /// The target of an HTTP request: see [`UriRef::request_target`].
            #[must_use]
            pub fn request_target(&self) -> Option<String> {
                self.$view().request_target()
            }

            /// The same with `***` in place of its password: see [`UriRef::mask_password`].
            #[must_use]
            pub fn mask_password(&self) -> Self {
                self.$view().mask_password()
            }
        }
    };
}

edits!(UriRefBuf, as_uri_ref);
edits!(UriBuf, as_uri);

/// What a URI with another query is.
fn of_uri(reference: UriRefBuf) -> UriBuf {
    UriBuf::try_from(reference).expect("the scheme is kept")
}
