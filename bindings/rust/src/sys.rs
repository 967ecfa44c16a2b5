//! The calls of `uriparse.h`, which says what each does. This file has all unsafe code of the crate, and each of its functions is safe.
//!
//! A slice meets what the header asks of a text: its pointer isn't null, it is readable for its length, which is at most
//! `isize::MAX`, and nothing changes it during a call.

#[cfg(feature = "alloc")]
use alloc::vec::Vec;
use core::cmp::Ordering;

pub(crate) const OK: u32 = 0;
pub(crate) const NO_ROOM: u32 = 2;
#[cfg(feature = "alloc")]
pub(crate) const NO_PAIRS: u32 = 14;
pub(crate) const HOST_BYTE: u32 = 0x31;
pub(crate) const HOST_IPV6_BYTE: u32 = 0x32;
pub(crate) const HOST_FUTURE_BYTE: u32 = 0x34;
pub(crate) const IN_BASE: u32 = 0x100;

/// `struct uriparse_span`: where a component is.
#[repr(C)]
#[derive(Clone, Copy, Default)]
pub(crate) struct Span {
    begin: usize,
    end: usize,
    present: u8,
}

impl Span {
    /// The component of the text that was read, if it is present.
    pub(crate) fn of(self, text: &str) -> Option<&str> {
        (self.present != 0).then(|| &text[self.begin..self.end])
    }

    /// The place after the byte that follows it.
    pub(crate) fn next(self) -> usize {
        self.end + 1
    }
}

/// `struct uriparse_parts`: where the components of a reference are.
#[repr(C)]
#[derive(Clone, Copy, Default)]
pub(crate) struct Parts {
    pub(crate) scheme: Span,
    pub(crate) authority: Span,
    pub(crate) username: Span,
    pub(crate) password: Span,
    pub(crate) host: Span,
    pub(crate) port: Span,
    pub(crate) path: Span,
    pub(crate) query: Span,
    pub(crate) fragment: Span,
    pub(crate) host_kind: u32,
    pub(crate) port_number: u32,
}

/// `struct uriparse_pair`: where a pair of a query is, and where the next one begins.
#[repr(C)]
#[derive(Clone, Copy, Default)]
pub(crate) struct Pair {
    pub(crate) name: Span,
    pub(crate) value: Span,
    pub(crate) next: usize,
}

/// `struct uriparse_value`: what becomes of a component. By default it is kept.
#[repr(C)]
#[derive(Clone, Copy, Default)]
pub(crate) struct Value {
    begin: usize,
    end: usize,
    action: u8,
}

#[cfg(feature = "alloc")]
impl Value {
    pub(crate) const REMOVE: Self = Self {
        begin: 0,
        end: 0,
        action: 2,
    };

    /// The component becomes these bytes of the values.
    pub(crate) fn set(begin: usize, end: usize) -> Self {
        Self {
            begin,
            end,
            action: 1,
        }
    }
}

/// `struct uriparse_changes`: scheme, user name, password, host, port, path, query and fragment.
pub(crate) type Values = [Value; 8];

#[allow(dead_code)]
extern "C" {
    // calls.tsv: calls
    fn uriparse_parse(text: *const u8, len: usize, parts: *mut Parts) -> u32;
    fn uriparse_first_fault(text: *const u8, len: usize, place: *mut usize) -> u32;
    fn uriparse_is_uri(text: *const u8, len: usize) -> bool;
    fn uriparse_equal(
        left: *const u8,
        left_len: usize,
        right: *const u8,
        right_len: usize,
        equal: *mut bool,
    ) -> u32;
    fn uriparse_compare(
        left: *const u8,
        left_len: usize,
        right: *const u8,
        right_len: usize,
        order: *mut i32,
    ) -> u32;
    fn uriparse_same_origin(
        left: *const u8,
        left_len: usize,
        right: *const u8,
        right_len: usize,
        same: *mut bool,
    ) -> u32;
    fn uriparse_is_normalized(text: *const u8, len: usize, normalized: *mut bool) -> u32;
    fn uriparse_is_within(
        text: *const u8,
        len: usize,
        base: *const u8,
        base_len: usize,
        within: *mut bool,
    ) -> u32;
    fn uriparse_host_is_within(
        text: *const u8,
        len: usize,
        domain: *const u8,
        domain_len: usize,
        within: *mut bool,
    ) -> u32;
    fn uriparse_host_is_within_any(
        text: *const u8,
        len: usize,
        domains: *const u8,
        domains_len: usize,
        within: *mut bool,
    ) -> u32;
    fn uriparse_host_flags(text: *const u8, len: usize, flags: *mut u32) -> u32;
    fn uriparse_disagreement(text: *const u8, len: usize, reasons: *mut u32) -> u32;
    fn uriparse_is_public(text: *const u8, len: usize, is_public: *mut bool) -> u32;
    fn uriparse_is_ambiguous(segment: *const u8, len: usize, ambiguous: *mut bool) -> u32;
    fn uriparse_port_or_default(text: *const u8, len: usize, port: *mut i32) -> u32;
    fn uriparse_host_address(
        text: *const u8,
        len: usize,
        out: *mut u8,
        room: usize,
        needed: *mut usize,
    ) -> u32;
    fn uriparse_default_port(scheme: *const u8, len: usize) -> u32;
    fn uriparse_hash(text: *const u8, len: usize, hash: *mut u64) -> u32;
    fn uriparse_key(
        flags: u32,
        text: *const u8,
        len: usize,
        out: *mut u8,
        room: usize,
        needed: *mut usize,
    ) -> u32;
    fn uriparse_place_key(
        text: *const u8,
        len: usize,
        out: *mut u8,
        room: usize,
        needed: *mut usize,
    ) -> u32;
    fn uriparse_domain_prefix(
        domain: *const u8,
        len: usize,
        out: *mut u8,
        room: usize,
        needed: *mut usize,
    ) -> u32;
    fn uriparse_base_prefix(
        base: *const u8,
        len: usize,
        out: *mut u8,
        room: usize,
        needed: *mut usize,
    ) -> u32;
    fn uriparse_normalize(
        text: *const u8,
        len: usize,
        out: *mut u8,
        room: usize,
        needed: *mut usize,
    ) -> u32;
    fn uriparse_resolve(
        base: *const u8,
        base_len: usize,
        text: *const u8,
        len: usize,
        out: *mut u8,
        room: usize,
        needed: *mut usize,
    ) -> u32;
    fn uriparse_relativize(
        base: *const u8,
        base_len: usize,
        text: *const u8,
        len: usize,
        out: *mut u8,
        room: usize,
        needed: *mut usize,
    ) -> u32;
    fn uriparse_origin(
        text: *const u8,
        len: usize,
        out: *mut u8,
        room: usize,
        needed: *mut usize,
    ) -> u32;
    fn uriparse_change(
        text: *const u8,
        len: usize,
        changes: *const Values,
        values: *const u8,
        values_len: usize,
        out: *mut u8,
        room: usize,
        needed: *mut usize,
    ) -> u32;
    fn uriparse_without_default_port(
        text: *const u8,
        len: usize,
        out: *mut u8,
        room: usize,
        needed: *mut usize,
    ) -> u32;
    fn uriparse_mask_password(
        text: *const u8,
        len: usize,
        out: *mut u8,
        room: usize,
        needed: *mut usize,
    ) -> u32;
    fn uriparse_request_target(
        text: *const u8,
        len: usize,
        out: *mut u8,
        room: usize,
        needed: *mut usize,
    ) -> u32;
    fn uriparse_next_segment(path: *const u8, len: usize, at: usize, segment: *mut Span) -> bool;
    fn uriparse_next_pair(query: *const u8, len: usize, at: usize, pair: *mut Pair) -> bool;
    fn uriparse_find_pair(
        query: *const u8,
        len: usize,
        name: *const u8,
        name_len: usize,
        pair: *mut Pair,
    ) -> bool;
    fn uriparse_find_next_pair(
        query: *const u8,
        len: usize,
        at: usize,
        name: *const u8,
        name_len: usize,
        pair: *mut Pair,
    ) -> bool;
    fn uriparse_set_pair(
        query: *const u8,
        len: usize,
        name: *const u8,
        name_len: usize,
        value: *const u8,
        value_len: usize,
        has_value: bool,
        out: *mut u8,
        room: usize,
        needed: *mut usize,
    ) -> u32;
    fn uriparse_append_pair(
        query: *const u8,
        len: usize,
        name: *const u8,
        name_len: usize,
        value: *const u8,
        value_len: usize,
        has_value: bool,
        out: *mut u8,
        room: usize,
        needed: *mut usize,
    ) -> u32;
    fn uriparse_drop_pairs(
        query: *const u8,
        len: usize,
        names: *const u8,
        names_len: usize,
        out: *mut u8,
        room: usize,
        needed: *mut usize,
    ) -> u32;
    fn uriparse_decode(
        text: *const u8,
        len: usize,
        out: *mut u8,
        room: usize,
        needed: *mut usize,
    ) -> u32;
    fn uriparse_form_decode(
        text: *const u8,
        len: usize,
        out: *mut u8,
        room: usize,
        needed: *mut usize,
    ) -> u32;
    fn uriparse_encode(
        component: u32,
        bytes: *const u8,
        len: usize,
        out: *mut u8,
        room: usize,
        needed: *mut usize,
    ) -> u32;
    fn uriparse_escape(
        text: *const u8,
        len: usize,
        out: *mut u8,
        room: usize,
        needed: *mut usize,
    ) -> u32;
    fn uriparse_trim_link(
        text: *const u8,
        len: usize,
        out: *mut u8,
        room: usize,
        needed: *mut usize,
    ) -> u32;
    // calls.tsv: end
}

/// Where the components of a reference are, or the code of its error.
pub(crate) fn parse(text: &[u8]) -> Result<Parts, u32> {
    let mut parts = Parts::default();
    // SAFETY: the slice is a text, and `parts` is writable.
    match unsafe { uriparse_parse(text.as_ptr(), text.len(), &mut parts) } {
        OK => Ok(parts),
        code => Err(code),
    }
}

/// The code of a text's error, and how many bytes precede its first fault.
pub(crate) fn first_fault(text: &[u8]) -> Option<(u32, usize)> {
    let mut place = 0;
    // SAFETY: the slice is a text, and `place` is writable.
    match unsafe { uriparse_first_fault(text.as_ptr(), text.len(), &mut place) } {
        OK => None,
        code => Some((code, place)),
    }
}

/// Whether both texts are references, and equal.
pub(crate) fn equal(left: &[u8], right: &[u8]) -> bool {
    let mut equal = false;
    // SAFETY: both slices are texts, and `equal` is writable.
    let code = unsafe {
        uriparse_equal(
            left.as_ptr(),
            left.len(),
            right.as_ptr(),
            right.len(),
            &mut equal,
        )
    };
    code == OK && equal
}

/// Whether both texts are references that have an origin, and it is one.
pub(crate) fn same_origin(left: &[u8], right: &[u8]) -> bool {
    let mut same = false;
    // SAFETY: both slices are texts, and `same` is writable.
    let code = unsafe {
        uriparse_same_origin(
            left.as_ptr(),
            left.len(),
            right.as_ptr(),
            right.len(),
            &mut same,
        )
    };
    code == OK && same
}

/// Whether a text is a reference, and its own normal form.
pub(crate) fn is_normalized(text: &[u8]) -> bool {
    let mut normalized = false;
    // SAFETY: the slice is a text, and `normalized` is writable.
    let code = unsafe { uriparse_is_normalized(text.as_ptr(), text.len(), &mut normalized) };
    code == OK && normalized
}

/// Whether a text is a reference that has a public host.
pub(crate) fn is_public(text: &[u8]) -> bool {
    let mut public = false;
    // SAFETY: the slice is a text, and `public` is writable.
    let code = unsafe { uriparse_is_public(text.as_ptr(), text.len(), &mut public) };
    code == OK && public
}

/// The hash of a reference, or 0 for another text.
pub(crate) fn hash(text: &[u8]) -> u64 {
    let mut hash = 0;
    // SAFETY: the slice is a text, and `hash` is writable. On an error it keeps its value.
    unsafe { uriparse_hash(text.as_ptr(), text.len(), &mut hash) };
    hash
}

/// The pair that begins at this place of a query, if one does.
pub(crate) fn next_pair(query: &[u8], at: usize) -> Option<Pair> {
    let mut pair = Pair::default();
    // SAFETY: the slice is a text, and `pair` is writable.
    unsafe { uriparse_next_pair(query.as_ptr(), query.len(), at, &mut pair) }.then_some(pair)
}

/// The first segment that is left of a path from this place, if one is.
pub(crate) fn next_segment(path: &[u8], at: usize) -> Option<Span> {
    let mut segment = Span::default();
    // SAFETY: the slice is a text, and `segment` is writable.
    unsafe { uriparse_next_segment(path.as_ptr(), path.len(), at, &mut segment) }.then_some(segment)
}

/// The first pair of a query with this name, if there is one.
#[cfg(feature = "alloc")]
pub(crate) fn find_pair(query: &[u8], name: &[u8]) -> Option<Pair> {
    let mut pair = Pair::default();
    // SAFETY: both slices are texts, and `pair` is writable.
    let is_found = unsafe {
        uriparse_find_pair(
            query.as_ptr(),
            query.len(),
            name.as_ptr(),
            name.len(),
            &mut pair,
        )
    };
    is_found.then_some(pair)
}

/// The first pair of a query with this name that begins at this place or later, if there is one.
#[cfg(feature = "alloc")]
pub(crate) fn find_next_pair(query: &[u8], at: usize, name: &[u8]) -> Option<Pair> {
    let mut pair = Pair::default();
    // SAFETY: both slices are texts, and `pair` is writable.
    let is_found = unsafe {
        uriparse_find_next_pair(
            query.as_ptr(),
            query.len(),
            at,
            name.as_ptr(),
            name.len(),
            &mut pair,
        )
    };
    is_found.then_some(pair)
}

/// The order of two references; of other texts they are equal.
pub(crate) fn compare(left: &[u8], right: &[u8]) -> Ordering {
    let mut order = 0;
    // SAFETY: both slices are texts, and `order` is writable. On an error it keeps its value.
    unsafe {
        uriparse_compare(
            left.as_ptr(),
            left.len(),
            right.as_ptr(),
            right.len(),
            &mut order,
        )
    };
    order.cmp(&0)
}

/// Whether both texts are URIs, and the first is below the second.
pub(crate) fn is_within(text: &[u8], base: &[u8]) -> bool {
    let mut within = false;
    // SAFETY: both slices are texts, and `within` is writable.
    let code = unsafe {
        uriparse_is_within(
            text.as_ptr(),
            text.len(),
            base.as_ptr(),
            base.len(),
            &mut within,
        )
    };
    code == OK && within
}

/// Whether the host of a reference is within one of the domains, or the code of an error.
pub(crate) fn host_is_within_any(text: &[u8], domains: &[u8]) -> Result<bool, u32> {
    let mut within = false;
    // SAFETY: both slices are texts, and `within` is writable.
    let code = unsafe {
        uriparse_host_is_within_any(
            text.as_ptr(),
            text.len(),
            domains.as_ptr(),
            domains.len(),
            &mut within,
        )
    };
    match code {
        OK => Ok(within),
        code => Err(code),
    }
}

/// Whether the host of a reference is within the domain, or the code of an error.
pub(crate) fn host_is_within(text: &[u8], domain: &[u8]) -> Result<bool, u32> {
    let mut within = false;
    // SAFETY: both slices are texts, and `within` is writable.
    let code = unsafe {
        uriparse_host_is_within(
            text.as_ptr(),
            text.len(),
            domain.as_ptr(),
            domain.len(),
            &mut within,
        )
    };
    match code {
        OK => Ok(within),
        code => Err(code),
    }
}

/// The flags of the host of a reference, or 0 for another text.
pub(crate) fn host_flags(text: &[u8]) -> u32 {
    let mut flags = 0;
    // SAFETY: the slice is a text, and `flags` is writable. On an error it keeps its value.
    unsafe { uriparse_host_flags(text.as_ptr(), text.len(), &mut flags) };
    flags
}

/// The flags of the reasons for which readers may disagree on a reference, or 0 for another text.
pub(crate) fn disagreement(text: &[u8]) -> u32 {
    let mut reasons = 0;
    // SAFETY: the slice is a text, and `reasons` is writable. On an error it keeps its value.
    unsafe { uriparse_disagreement(text.as_ptr(), text.len(), &mut reasons) };
    reasons
}

/// Whether a segment of a path is ambiguous, or the code of its error.
pub(crate) fn is_ambiguous(segment: &[u8]) -> Result<bool, u32> {
    let mut ambiguous = false;
    // SAFETY: the slice is a text, and `ambiguous` is writable.
    match unsafe { uriparse_is_ambiguous(segment.as_ptr(), segment.len(), &mut ambiguous) } {
        OK => Ok(ambiguous),
        code => Err(code),
    }
}

/// The port of a reference or the default port of its scheme, or -1, also for another text.
pub(crate) fn port_or_default(text: &[u8]) -> i32 {
    let mut port = -1;
    // SAFETY: the slice is a text, and `port` is writable. On an error it keeps its value.
    unsafe { uriparse_port_or_default(text.as_ptr(), text.len(), &mut port) };
    port
}

/// The default port of a scheme, or 0.
pub(crate) fn default_port(scheme: &[u8]) -> u32 {
    // SAFETY: the slice is a text.
    unsafe { uriparse_default_port(scheme.as_ptr(), scheme.len()) }
}

/// A pair with its query, and whether it is appended or set.
#[cfg(feature = "alloc")]
#[derive(Clone, Copy)]
pub(crate) struct Paired<'a> {
    pub(crate) query: &'a [u8],
    pub(crate) name: &'a [u8],
    pub(crate) value: Option<&'a [u8]>,
    pub(crate) is_appended: bool,
}

#[cfg(feature = "alloc")]
impl Paired<'_> {
    /// Makes the call.
    ///
    /// # Safety
    ///
    /// As for [`Write::call`].
    unsafe fn call(self, out: *mut u8, room: usize, needed: &mut usize) -> u32 {
        let Self {
            query,
            name,
            value,
            is_appended,
        } = self;
        let call = if is_appended {
            uriparse_append_pair
        } else {
            uriparse_set_pair
        };
        let text = value.unwrap_or(b"");
        // SAFETY: each slice is a text, and of the buffer the caller ensures what the header asks.
        unsafe {
            call(
                query.as_ptr(),
                query.len(),
                name.as_ptr(),
                name.len(),
                text.as_ptr(),
                text.len(),
                value.is_some(),
                out,
                room,
                needed,
            )
        }
    }
}

/// A call that writes to a buffer, with the texts that it reads.
#[derive(Clone, Copy)]
pub(crate) enum Write<'a> {
    Normal(&'a [u8]),
    /// The sort key of the form with these flags.
    Key(u32, &'a [u8]),
    PlaceKey(&'a [u8]),
    #[cfg(feature = "alloc")]
    DomainPrefix(&'a [u8]),
    #[cfg(feature = "alloc")]
    BasePrefix(&'a [u8]),
    /// The target of the second against the first.
    Target(&'a [u8], &'a [u8]),
    /// What leads from the first to the second.
    Relative(&'a [u8], &'a [u8]),
    /// The bytes of the address that is the host.
    #[cfg(feature = "std")]
    Address(&'a [u8]),
    #[cfg(feature = "alloc")]
    Origin(&'a [u8]),
    /// The text without its port, if that is the default one.
    #[cfg(feature = "alloc")]
    WithoutDefaultPort(&'a [u8]),
    /// The text with stars for its password.
    #[cfg(feature = "alloc")]
    Masked(&'a [u8]),
    /// The path and the query of a request.
    #[cfg(feature = "alloc")]
    RequestTarget(&'a [u8]),
    #[cfg(feature = "alloc")]
    Decoded(&'a [u8]),
    /// What a text of a form stands for.
    #[cfg(feature = "alloc")]
    FormDecoded(&'a [u8]),
    /// The bytes as a component with this number.
    #[cfg(feature = "alloc")]
    Encoded(u32, &'a [u8]),
    #[cfg(feature = "alloc")]
    Escaped(&'a [u8]),
    /// The link in a text that was cut out of a page.
    #[cfg(feature = "alloc")]
    Trimmed(&'a [u8]),
    /// The text with these changes, whose values are among the bytes.
    #[cfg(feature = "alloc")]
    Changed(&'a [u8], &'a Values, &'a [u8]),
    #[cfg(feature = "alloc")]
    WithPair(Paired<'a>),
    /// The query without the pairs of these names.
    #[cfg(feature = "alloc")]
    WithoutPairs(&'a [u8], &'a [u8]),
}

impl Write<'_> {
    /// Makes the call.
    ///
    /// # Safety
    ///
    /// `out` isn't null, is writable for `room` bytes and overlaps no text. It need not be initialized.
    ///
    /// With the code `OK` the first `needed` bytes are written, and that is at most `room`. With any other code none is written, and
    /// with `NO_ROOM` `needed` bytes are enough.
    unsafe fn call(self, out: *mut u8, room: usize, needed: &mut usize) -> u32 {
        // SAFETY: each slice is a text, and of the buffer the caller ensures what the header asks.
        unsafe {
            match self {
                Self::Normal(text) => {
                    uriparse_normalize(text.as_ptr(), text.len(), out, room, needed)
                }
                Self::Key(flags, text) => {
                    uriparse_key(flags, text.as_ptr(), text.len(), out, room, needed)
                }
                Self::PlaceKey(text) => {
                    uriparse_place_key(text.as_ptr(), text.len(), out, room, needed)
                }
                #[cfg(feature = "alloc")]
                Self::DomainPrefix(text) => {
                    uriparse_domain_prefix(text.as_ptr(), text.len(), out, room, needed)
                }
                #[cfg(feature = "alloc")]
                Self::BasePrefix(text) => {
                    uriparse_base_prefix(text.as_ptr(), text.len(), out, room, needed)
                }
                Self::Target(base, text) => {
                    let (base, base_len) = (base.as_ptr(), base.len());
                    uriparse_resolve(base, base_len, text.as_ptr(), text.len(), out, room, needed)
                }
                Self::Relative(base, text) => {
                    let (base, base_len) = (base.as_ptr(), base.len());
                    uriparse_relativize(
                        base,
                        base_len,
                        text.as_ptr(),
                        text.len(),
                        out,
                        room,
                        needed,
                    )
                }
                #[cfg(feature = "std")]
                Self::Address(text) => {
                    uriparse_host_address(text.as_ptr(), text.len(), out, room, needed)
                }
                #[cfg(feature = "alloc")]
                Self::Origin(text) => uriparse_origin(text.as_ptr(), text.len(), out, room, needed),
                #[cfg(feature = "alloc")]
                Self::Decoded(text) => {
                    uriparse_decode(text.as_ptr(), text.len(), out, room, needed)
                }
                #[cfg(feature = "alloc")]
                Self::FormDecoded(text) => {
                    uriparse_form_decode(text.as_ptr(), text.len(), out, room, needed)
                }
                #[cfg(feature = "alloc")]
                Self::Encoded(component, bytes) => {
                    uriparse_encode(component, bytes.as_ptr(), bytes.len(), out, room, needed)
                }
                #[cfg(feature = "alloc")]
                Self::Escaped(text) => {
                    uriparse_escape(text.as_ptr(), text.len(), out, room, needed)
                }
                #[cfg(feature = "alloc")]
                Self::WithoutDefaultPort(text) => {
                    let (at, len) = (text.as_ptr(), text.len());
                    uriparse_without_default_port(at, len, out, room, needed)
                }
                #[cfg(feature = "alloc")]
                Self::RequestTarget(text) => {
                    uriparse_request_target(text.as_ptr(), text.len(), out, room, needed)
                }
                #[cfg(feature = "alloc")]
                Self::Masked(text) => {
                    uriparse_mask_password(text.as_ptr(), text.len(), out, room, needed)
                }
                #[cfg(feature = "alloc")]
                Self::Trimmed(text) => {
                    uriparse_trim_link(text.as_ptr(), text.len(), out, room, needed)
                }
                #[cfg(feature = "alloc")]
                Self::Changed(text, changes, values) => {
                    let (at, len) = (values.as_ptr(), values.len());
                    uriparse_change(
                        text.as_ptr(),
                        text.len(),
                        changes,
                        at,
                        len,
                        out,
                        room,
                        needed,
                    )
                }
                #[cfg(feature = "alloc")]
                Self::WithPair(pair) => pair.call(out, room, needed),
                #[cfg(feature = "alloc")]
                Self::WithoutPairs(query, names) => {
                    let (at, len) = (names.as_ptr(), names.len());
                    uriparse_drop_pairs(query.as_ptr(), query.len(), at, len, out, room, needed)
                }
            }
        }
    }

    /// Writes to the buffer. Returns how many bytes were written, or the code of the error and how many would be enough.
    pub(crate) fn into_slice(self, out: &mut [u8]) -> Result<usize, (u32, usize)> {
        let mut needed = 0;
        // SAFETY: the slice is writable for its length, and as it is borrowed alone it overlaps no text.
        match unsafe { self.call(out.as_mut_ptr(), out.len(), &mut needed) } {
            OK => Ok(needed),
            code => Err((code, needed)),
        }
    }

    /// What the call writes, or the code of its error. Most results fit the first buffer; else the second has the room that is needed.
    #[cfg(feature = "alloc")]
    pub(crate) fn into_vec(self) -> Result<Vec<u8>, u32> {
        let mut out = Vec::with_capacity(self.first_room());
        loop {
            let mut needed = 0;
            // SAFETY: the vector is writable for its capacity, and is new, so it overlaps no text.
            match unsafe { self.call(out.as_mut_ptr(), out.capacity(), &mut needed) } {
                OK => {
                    // SAFETY: so many bytes were written, and they are within the capacity.
                    unsafe { out.set_len(needed) };
                    return Ok(out);
                }
                NO_ROOM => out.reserve_exact(needed),
                code => return Err(code),
            }
        }
    }

    #[cfg(feature = "alloc")]
    fn first_room(self) -> usize {
        match self {
            #[cfg(feature = "std")]
            Self::Address(_) => 16,
            Self::Normal(text) | Self::Origin(text) => text.len() + 2,
            Self::Decoded(text) | Self::FormDecoded(text) | Self::Trimmed(text) => text.len(),
            Self::WithoutDefaultPort(text) => text.len(),
            Self::RequestTarget(text) => text.len() + 1,
            Self::Masked(text) => text.len() + 3,
            Self::Encoded(_, text) | Self::Escaped(text) => text.len() + 16,
            Self::Key(_, text)
            | Self::PlaceKey(text)
            | Self::DomainPrefix(text)
            | Self::BasePrefix(text) => text.len() + 24,
            Self::Target(base, text) | Self::Relative(base, text) => base.len() + text.len() + 2,
            Self::Changed(text, _, values) => text.len() + values.len() + 8,
            Self::WithPair(pair) => pair.query.len() + pair.name.len() + 16,
            Self::WithoutPairs(query, _) => query.len(),
        }
    }
}
