//! The pairs of a query, and the segments of a path.

use crate::sys;
use core::iter::FusedIterator;

/// The pairs of a query, in order: a name and, after its first `=`, a value.
///
/// The pairs are the pieces between the `&`, as they stand in the query: [`decode`](crate::decode) reads each, and leaves a `+` as it
/// is; [`form_decode`](crate::form_decode) reads those of an HTML form. A query that is present has a pair at least: that of an empty piece has an empty name and no value.
///
/// ```
/// use uriparse_rattle::Pairs;
///
/// let pairs: Vec<_> = Pairs::new("a=1&b&c=%26=").collect();
/// assert_eq!(pairs, [("a", Some("1")), ("b", None), ("c", Some("%26="))]);
/// ```
#[derive(Clone, Debug)]
pub struct Pairs<'a> {
    query: &'a str,
    at: usize,
}

impl<'a> Pairs<'a> {
    /// The pairs of a query, which stands without its `?`. Any string is cut like that.
    #[must_use]
    pub fn new(query: &'a str) -> Self {
        Self { query, at: 0 }
    }

    /// The pairs of a query, if there is one.
    pub(crate) fn of(query: Option<&'a str>) -> Self {
        query.map_or(Self { query: "", at: 1 }, Self::new)
    }
}

impl<'a> Iterator for Pairs<'a> {
    type Item = (&'a str, Option<&'a str>);

    fn next(&mut self) -> Option<Self::Item> {
        let pair = sys::next_pair(self.query.as_bytes(), self.at)?;
        self.at = pair.next;
        Some((
            pair.name.of(self.query).unwrap_or(""),
            pair.value.of(self.query),
        ))
    }
}

impl FusedIterator for Pairs<'_> {}

/// The segments of a path, in order.
///
/// The segments are the pieces between the `/`, without one before a leading `/`, as they stand in the path: [`decode`](crate::decode)
/// reads each. Each path has a segment at least, which is empty for an empty path and for `/`.
///
/// ```
/// use uriparse_rattle::Segments;
///
/// let segments: Vec<_> = Segments::new("/a%2Fb//..").collect();
/// assert_eq!(segments, ["a%2Fb", "", ".."]);
/// assert!(Segments::new("/").eq(Segments::new("")));
/// ```
#[derive(Clone, Debug)]
pub struct Segments<'a> {
    path: &'a str,
    at: usize,
}

impl<'a> Segments<'a> {
    /// The segments of a path. Any string is cut like that.
    #[must_use]
    pub fn new(path: &'a str) -> Self {
        Self { path, at: 0 }
    }
}

impl<'a> Iterator for Segments<'a> {
    type Item = &'a str;

    fn next(&mut self) -> Option<Self::Item> {
        let segment = sys::next_segment(self.path.as_bytes(), self.at)?;
        self.at = segment.next();
        segment.of(self.path)
    }
}

impl FusedIterator for Segments<'_> {}
