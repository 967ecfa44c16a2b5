//! Random strings: what the crate's calls return is what the calls of C return.

use std::convert::TryFrom;
use std::net::IpAddr;
use uriparse_rattle::{
    decode, domain_prefix, encode, escape, form_decode, is_ambiguous, trim_link, Change, Changes,
    Encoding, Error, KeyForm, Uri, UriRef,
};

type OfOne = unsafe extern "C" fn(*const u8, usize, *mut u8, usize, *mut usize) -> u32;
type OfTwo =
    unsafe extern "C" fn(*const u8, usize, *const u8, usize, *mut u8, usize, *mut usize) -> u32;
type Pair = unsafe extern "C" fn(
    *const u8,
    usize,
    *const u8,
    usize,
    *const u8,
    usize,
    bool,
    *mut u8,
    usize,
    *mut usize,
) -> u32;

#[allow(dead_code)]
extern "C" {
    // calls.tsv: calls
    fn uriparse_first_fault(text: *const u8, len: usize, place: *mut usize) -> u32;
    fn uriparse_is_uri(text: *const u8, len: usize) -> bool;
    fn uriparse_equal(
        left: *const u8,
        left_len: usize,
        right: *const u8,
        right_len: usize,
        equal: *mut bool,
    ) -> u32;
    fn uriparse_compare(
        left: *const u8,
        left_len: usize,
        right: *const u8,
        right_len: usize,
        order: *mut i32,
    ) -> u32;
    fn uriparse_same_origin(
        left: *const u8,
        left_len: usize,
        right: *const u8,
        right_len: usize,
        same: *mut bool,
    ) -> u32;
    fn uriparse_is_normalized(text: *const u8, len: usize, normalized: *mut bool) -> u32;
    fn uriparse_is_within(
        text: *const u8,
        len: usize,
        base: *const u8,
        base_len: usize,
        within: *mut bool,
    ) -> u32;
    fn uriparse_host_is_within(
        text: *const u8,
        len: usize,
        domain: *const u8,
        domain_len: usize,
        within: *mut bool,
    ) -> u32;
    fn uriparse_host_is_within_any(
        text: *const u8,
        len: usize,
        domains: *const u8,
        domains_len: usize,
        within: *mut bool,
    ) -> u32;
    fn uriparse_host_flags(text: *const u8, len: usize, flags: *mut u32) -> u32;
    fn uriparse_disagreement(text: *const u8, len: usize, reasons: *mut u32) -> u32;
    fn uriparse_is_public(text: *const u8, len: usize, is_public: *mut bool) -> u32;
    fn uriparse_is_ambiguous(segment: *const u8, len: usize, ambiguous: *mut bool) -> u32;
    fn uriparse_port_or_default(text: *const u8, len: usize, port: *mut i32) -> u32;
    fn uriparse_host_address(
        text: *const u8,
        len: usize,
        out: *mut u8,
        room: usize,
        needed: *mut usize,
    ) -> u32;
    fn uriparse_default_port(scheme: *const u8, len: usize) -> u32;
    fn uriparse_hash(text: *const u8, len: usize, hash: *mut u64) -> u32;
    fn uriparse_key(
        flags: u32,
        text: *const u8,
        len: usize,
        out: *mut u8,
        room: usize,
        needed: *mut usize,
    ) -> u32;
    fn uriparse_place_key(
        text: *const u8,
        len: usize,
        out: *mut u8,
        room: usize,
        needed: *mut usize,
    ) -> u32;
    fn uriparse_domain_prefix(
        domain: *const u8,
        len: usize,
        out: *mut u8,
        room: usize,
        needed: *mut usize,
    ) -> u32;
    fn uriparse_base_prefix(
        base: *const u8,
        len: usize,
        out: *mut u8,
        room: usize,
        needed: *mut usize,
    ) -> u32;
    fn uriparse_normalize(
        text: *const u8,
        len: usize,
        out: *mut u8,
        room: usize,
        needed: *mut usize,
    ) -> u32;
    fn uriparse_resolve(
        base: *const u8,
        base_len: usize,
        text: *const u8,
        len: usize,
        out: *mut u8,
        room: usize,
        needed: *mut usize,
    ) -> u32;
    fn uriparse_relativize(
        base: *const u8,
        base_len: usize,
        text: *const u8,
        len: usize,
        out: *mut u8,
        room: usize,
        needed: *mut usize,
    ) -> u32;
    fn uriparse_origin(
        text: *const u8,
        len: usize,
        out: *mut u8,
        room: usize,
        needed: *mut usize,
    ) -> u32;
    fn uriparse_without_default_port(
        text: *const u8,
        len: usize,
        out: *mut u8,
        room: usize,
        needed: *mut usize,
    ) -> u32;
    fn uriparse_mask_password(
        text: *const u8,
        len: usize,
        out: *mut u8,
        room: usize,
        needed: *mut usize,
    ) -> u32;
    fn uriparse_request_target(
        text: *const u8,
        len: usize,
        out: *mut u8,
        room: usize,
        needed: *mut usize,
    ) -> u32;
    fn uriparse_set_pair(
        query: *const u8,
        len: usize,
        name: *const u8,
        name_len: usize,
        value: *const u8,
        value_len: usize,
        has_value: bool,
        out: *mut u8,
        room: usize,
        needed: *mut usize,
    ) -> u32;
    fn uriparse_append_pair(
        query: *const u8,
        len: usize,
        name: *const u8,
        name_len: usize,
        value: *const u8,
        value_len: usize,
        has_value: bool,
        out: *mut u8,
        room: usize,
        needed: *mut usize,
    ) -> u32;
    fn uriparse_drop_pairs(
        query: *const u8,
        len: usize,
        names: *const u8,
        names_len: usize,
        out: *mut u8,
        room: usize,
        needed: *mut usize,
    ) -> u32;
    fn uriparse_decode(
        text: *const u8,
        len: usize,
        out: *mut u8,
        room: usize,
        needed: *mut usize,
    ) -> u32;
    fn uriparse_form_decode(
        text: *const u8,
        len: usize,
        out: *mut u8,
        room: usize,
        needed: *mut usize,
    ) -> u32;
    fn uriparse_encode(
        component: u32,
        bytes: *const u8,
        len: usize,
        out: *mut u8,
        room: usize,
        needed: *mut usize,
    ) -> u32;
    fn uriparse_escape(
        text: *const u8,
        len: usize,
        out: *mut u8,
        room: usize,
        needed: *mut usize,
    ) -> u32;
    fn uriparse_trim_link(
        text: *const u8,
        len: usize,
        out: *mut u8,
        room: usize,
        needed: *mut usize,
    ) -> u32;
    // calls.tsv: end
}

const NO_PAIRS: u32 = 14;
const IN_BASE: u32 = 0x100;

/// What a call writes, or its code.
type Written = Result<Vec<u8>, u32>;

fn written(call: impl Fn(*mut u8, usize, *mut usize) -> u32) -> Written {
    let (mut out, mut needed) = (vec![0; 9999], 0);
    match call(out.as_mut_ptr(), out.len(), &mut needed) {
        0 => {
            out.truncate(needed);
            Ok(out)
        }
        code => Err(code & !IN_BASE),
    }
}

fn of_one(call: OfOne, text: &str) -> Written {
    // SAFETY: the text and the buffer are valid for their lengths.
    written(|out, room, needed| unsafe { call(text.as_ptr(), text.len(), out, room, needed) })
}

fn of_two(call: OfTwo, one: &str, other: &str) -> Written {
    let (a, b) = (one.as_ptr(), other.as_ptr());
    // SAFETY: as above.
    written(|out, room, needed| unsafe { call(a, one.len(), b, other.len(), out, room, needed) })
}

fn with_pair(call: Pair, query: &str, name: &str, value: Option<&str>) -> Written {
    let text = value.unwrap_or("");
    let (a, b, c) = (query.as_ptr(), name.as_ptr(), text.as_ptr());
    // SAFETY: as above.
    written(|out, room, needed| unsafe {
        call(
            a,
            query.len(),
            b,
            name.len(),
            c,
            text.len(),
            value.is_some(),
            out,
            room,
            needed,
        )
    })
}

/// A value that a call writes, or its code.
fn asked<T: Default>(call: impl Fn(*mut T) -> u32) -> Result<T, u32> {
    let mut out = T::default();
    match call(&mut out) {
        0 => Ok(out),
        code => Err(code & !IN_BASE),
    }
}

fn code(error: Error) -> u32 {
    error.kind().code()
}

fn bytes(text: impl ToString) -> Vec<u8> {
    text.to_string().into_bytes()
}

fn check_any(text: &str) {
    assert_eq!(of_one(uriparse_escape, text), Ok(bytes(escape(text))));
    assert_eq!(
        of_one(uriparse_decode, text),
        decode(text).map_err(code),
        "{text}"
    );
    assert_eq!(
        of_one(uriparse_form_decode, text),
        form_decode(text).map_err(code),
        "{text}"
    );
    assert_eq!(of_one(uriparse_trim_link, text), Ok(bytes(trim_link(text))));
    // SAFETY: the text is valid for its length.
    let ambiguous = asked(|out| unsafe { uriparse_is_ambiguous(text.as_ptr(), text.len(), out) });
    assert_eq!(ambiguous, is_ambiguous(text).map_err(code), "{text}");
    for encoding in [Encoding::Username, Encoding::Segment, Encoding::Pair] {
        let (at, number) = (text.as_ptr(), encoding as u32);
        // SAFETY: as above.
        let found = written(|out, room, needed| unsafe {
            uriparse_encode(number, at, text.len(), out, room, needed)
        });
        assert_eq!(found, Ok(bytes(encode(encoding, text))), "{text}");
    }
}

fn check_reference(uri: UriRef<'_>, base: &str) {
    let text = uri.as_str();
    let (a, b) = (text.as_ptr(), base.as_ptr());
    assert_eq!(
        of_one(uriparse_normalize, text),
        Ok(bytes(uri.normalize())),
        "{text}"
    );
    for form in [KeyForm::EXACT, KeyForm::PAGE] {
        let flags = if form == KeyForm::PAGE { 7 } else { 0 };
        // SAFETY: the text and the buffer are valid for their lengths.
        let key = written(|out, room, needed| unsafe {
            uriparse_key(flags, a, text.len(), out, room, needed)
        });
        assert_eq!(key, Ok(bytes(uri.key(form))), "{text}");
        let mut out = [0; 2_000];
        assert!(text.len() > 1_000 || uri.key_into(form, &mut out) == Ok(&*uri.key(form)));
    }
    let place = Uri::try_from(text).map(|uri| bytes(uri.place_key()));
    assert_eq!(of_one(uriparse_place_key, text), place.map_err(code));
    let prefix = Uri::try_from(text).map(|uri| bytes(uri.base_prefix()));
    assert_eq!(of_one(uriparse_base_prefix, text), prefix.map_err(code));
    let domain = domain_prefix(base).map(bytes).map_err(code);
    assert_eq!(of_one(uriparse_domain_prefix, base), domain, "{base}");
    // SAFETY: each text is valid for its length.
    let within = asked(|out| unsafe { uriparse_host_is_within(a, text.len(), b, base.len(), out) });
    assert_eq!(within, uri.host_is_within(base).map_err(code), "{text}");
    // SAFETY: as above.
    let any =
        asked(|out| unsafe { uriparse_host_is_within_any(a, text.len(), b, base.len(), out) });
    assert_eq!(any, uri.host_is_within_any(base).map_err(code), "{text}");
    assert_eq!(
        of_one(uriparse_without_default_port, text),
        Ok(bytes(uri.without_default_port())),
        "{text}"
    );
    assert_eq!(
        of_one(uriparse_mask_password, text),
        Ok(bytes(uri.mask_password())),
        "{text}"
    );
    let target = uri.request_target().map(bytes);
    assert_eq!(of_one(uriparse_request_target, text).ok(), target, "{text}");
    let joined = uri.segments().collect::<Vec<_>>().join("/");
    assert_eq!(joined, uri.path().strip_prefix('/').unwrap_or(uri.path()));
    // SAFETY: as above.
    let flags = asked(|out| unsafe { uriparse_host_flags(a, text.len(), out) });
    let own = [uri.hides_address(), uri.may_be_numeric(), uri.has_escapes()];
    let sum = (0..3).map(|at| u32::from(own[at]) << at).sum();
    assert_eq!(flags, Ok(sum), "{text}");
    // SAFETY: as above.
    let reasons = asked(|out| unsafe { uriparse_disagreement(a, text.len(), out) });
    let own = uriparse_rattle::Disagreement::ALL
        .into_iter()
        .filter(|reason| uri.disagrees(*reason));
    assert_eq!(reasons, Ok(own.map(|reason| reason as u32).sum()), "{text}");
    // SAFETY: as above.
    let normalized = asked(|out| unsafe { uriparse_is_normalized(a, text.len(), out) });
    assert_eq!(normalized, Ok(uri.is_normalized()), "{text}");
    // SAFETY: as above.
    let public = asked(|out| unsafe { uriparse_is_public(a, text.len(), out) });
    assert_eq!(public, Ok(uri.is_public()), "{text}");
    // SAFETY: as above.
    let port = asked(|out| unsafe { uriparse_port_or_default(a, text.len(), out) });
    assert_eq!(port, Ok(uri.port_or_default().map_or(-1, i32::from)));
    let address = uri.host_address().map(|address| match address {
        IpAddr::V4(address) => address.octets().to_vec(),
        IpAddr::V6(address) => address.octets().to_vec(),
    });
    assert_eq!(of_one(uriparse_host_address, text).ok(), address, "{text}");

    let query = uri.query().unwrap_or("");
    let set = uri.with_pair(base, Some(text));
    let appended = uri.with_appended_pair(base, None);
    let expected = (set.query().map(bytes), appended.query().map(bytes));
    let found = (
        with_pair(uriparse_set_pair, query, base, Some(text)).ok(),
        with_pair(uriparse_append_pair, query, base, None).ok(),
    );
    assert_eq!(found, expected, "{text} {base}");
    assert_eq!(set.pair(base), Some(bytes(text)));
    assert_eq!(set.pair_values(base), [bytes(text)]);
    assert_eq!(set.without_pair(base).pair(base), None, "{text} {base}");
    let left = uri.without_pairs(base);
    let left = left.map(|left| left.query().map(bytes)).map_err(code);
    let dropped = match of_two(uriparse_drop_pairs, query, base) {
        Err(NO_PAIRS) => Ok(None),
        other => other.map(|query| Some(query).filter(|_| uri.query().is_some())),
    };
    assert_eq!(dropped, left, "{text} {base}");
    let changes = Changes {
        query: Change::Remove,
        ..Changes::default()
    };
    assert_eq!(uri.change(&changes).unwrap().query(), None);
}

fn check_two(base: Uri<'_>, uri: UriRef<'_>) {
    let (one, other) = (base.as_str(), uri.as_str());
    let (a, b) = (one.as_ptr(), other.as_ptr());
    let target = base.resolve(&uri).map(bytes).map_err(code);
    assert_eq!(
        of_two(uriparse_resolve, one, other),
        target,
        "{one} {other}"
    );
    // SAFETY: as above.
    let equal = asked(|out| unsafe { uriparse_equal(a, one.len(), b, other.len(), out) });
    assert_eq!(equal, Ok(base.as_uri_ref() == uri), "{one} {other}");
    // SAFETY: as above.
    let order = asked(|out| unsafe { uriparse_compare(a, one.len(), b, other.len(), out) });
    assert_eq!(order, Ok(base.as_uri_ref().cmp(&uri) as i32));
    if let Ok(uri) = Uri::try_from(uri) {
        let relative = of_two(uriparse_relativize, one, other);
        assert_eq!(relative, Ok(bytes(base.relativize(&uri))), "{one} {other}");
        // SAFETY: as above.
        let within = asked(|out| unsafe { uriparse_is_within(b, other.len(), a, one.len(), out) });
        assert_eq!(within, Ok(uri.is_within(&base)), "{one} {other}");
        // SAFETY: as above.
        let same = asked(|out| unsafe { uriparse_same_origin(a, one.len(), b, other.len(), out) });
        assert_eq!(same, Ok(uri.same_origin(&base)), "{one} {other}");
        let origin = of_one(uriparse_origin, other).ok();
        assert_eq!(origin, uri.origin().map(bytes), "{other}");
    }
}

/// A number below `limit`, the same in every run.
fn draw(state: &mut u64, limit: usize) -> usize {
    *state ^= *state << 13;
    *state ^= *state >> 7;
    *state ^= *state << 17;
    (*state >> 33) as usize % limit
}

#[test]
fn random_texts() {
    const PIECES: &str = "http: S: // / .. . a %7e % %4A ? # @ : u:p@ [::1] [v1.x] 1.2.3.4 %31.2.3.4 h.Example :080 65536 & = + * ;x \\ é abcd";
    let pieces: Vec<_> = PIECES.split(' ').collect();
    let mut state = 88_172_645_463_325_252;
    let (mut base, mut accepted) = (String::new(), 0);
    for _ in 0..5_000 {
        let count = draw(&mut state, 10);
        let text: String = (0..count)
            .map(|_| pieces[draw(&mut state, pieces.len())])
            .collect();
        check_any(&text);
        if let Ok(uri) = UriRef::parse(&text) {
            accepted += 1;
            check_reference(uri, &base);
            if let Ok(base) = Uri::parse(&base) {
                check_two(base, uri);
            }
        }
        if Uri::parse(&text).is_ok() || draw(&mut state, 4) == 0 {
            base = text;
        }
    }
    assert!(accepted > 1_000, "{accepted}");
}
