//! The rows that all languages share, `bindings/rows.tsv`, and random values, whose errors are those of a reference that has them.

use std::convert::TryFrom;
use std::fs;
use std::hash::{Hash, Hasher};
use std::net::IpAddr;
use std::path::Path;
use uriparse_rattle::{
    decode, default_port, domain_prefix, encode, form_decode, is_ambiguous, trim_link, Change,
    Changes, Component, Disagreement, Encoding, Error, ErrorKind, HostKind, KeyForm, Uri, UriRef,
    UriRefBuf,
};

/// The codes of `uriparse.h`, as the rows name them.
const NAMES: &[(&str, ErrorKind)] = {
    use ErrorKind::*;
    &[
        // codes.tsv: names
        ("NO_SCHEME", NotUri),
        ("COLON_IN_SEGMENT", SchemelessPathStartsWithColonSegment),
        ("TOO_MANY_SEGMENTS", ExceededMaximumPathLength),
        ("TWO_SLASHES", AbsolutePathStartsWithTwoSlashes),
        ("MISSING_HOST", MissingHost),
        ("BAD_NAMES", InvalidNames),
        ("USERNAME_COLON", UsernameContainsColon),
        ("USERNAME_BYTE", InvalidUsernameCharacter),
        ("USERNAME_ESCAPE", InvalidUsernamePercentEncoding),
        ("PASSWORD_BYTE", InvalidPasswordCharacter),
        ("PASSWORD_ESCAPE", InvalidPasswordPercentEncoding),
        ("HOST_BYTE", InvalidHostCharacter),
        ("HOST_IPV6_BYTE", InvalidIpv6Character),
        ("HOST_IPV6_FORM", InvalidIpv6Format),
        ("HOST_FUTURE_BYTE", InvalidIpvFutureCharacter),
        ("HOST_FUTURE_FORM", InvalidIpvFutureFormat),
        ("PORT_BYTE", InvalidPortCharacter),
        ("PORT_RANGE", PortOverflow),
        ("PATH_BYTE", InvalidPathCharacter),
        ("PATH_ESCAPE", InvalidPathPercentEncoding),
        ("QUERY_BYTE", InvalidQueryCharacter),
        ("QUERY_ESCAPE", InvalidQueryPercentEncoding),
        ("FRAGMENT_BYTE", InvalidFragmentCharacter),
        ("FRAGMENT_ESCAPE", InvalidFragmentPercentEncoding),
        ("SCHEME_EMPTY", SchemeIsEmpty),
        ("SCHEME_BYTE", InvalidSchemeCharacter),
        ("SCHEME_LETTER", SchemeStartsWithNonAlphabetic),
        // codes.tsv: end
    ]
};

type Bytes = Option<Vec<u8>>;

/// An error as a row has it, without the number of the argument, which the crate's errors don't name.
fn error_row(error: Error) -> String {
    let name = NAMES.iter().find(|name| name.1 == error.kind());
    let component = error.component().expect("a component");
    let place = error
        .position()
        .map_or_else(|| "-".to_owned(), |position| position.to_string());
    let component = format!("{component:?}").to_lowercase();
    format!("! {} {component} {place}", name.expect("a name").0)
}

/// What a field of a row stands for.
fn meant(field: &str) -> Bytes {
    let mut bytes = Vec::new();
    let mut rest = field;
    while let Some((before, after)) = rest.split_once("\\x") {
        bytes.extend(before.bytes());
        bytes.push(u8::from_str_radix(&after[..2], 16).unwrap());
        rest = &after[2..];
    }
    bytes.extend(rest.bytes());
    Some(bytes).filter(|_| field != "\\N")
}

fn shown(answer: impl ToString) -> Bytes {
    Some(answer.to_string().into_bytes())
}

fn kind_of(uri: UriRef<'_>) -> Bytes {
    uri.host_kind()
        .and_then(|kind: HostKind| shown(format!("{kind:?}").to_lowercase()))
}

fn flags_of(uri: UriRef<'_>) -> Bytes {
    let flags = [uri.hides_address(), uri.may_be_numeric(), uri.has_escapes()];
    shown((0..3).map(|at| u32::from(flags[at]) << at).sum::<u32>())
}

fn disagreement_of(uri: UriRef<'_>) -> Bytes {
    let reasons = Disagreement::ALL
        .into_iter()
        .filter(|reason| uri.disagrees(*reason));
    shown(reasons.map(|reason| reason as u32).sum::<u32>())
}

fn pairs_of(uri: UriRef<'_>) -> Bytes {
    let pair = |(name, value): (&str, Option<&str>)| match value {
        Some(value) => format!("<{name}={value}>"),
        None => format!("<{name}>"),
    };
    shown(uri.query_pairs().map(pair).collect::<String>())
}

fn segments_of(uri: UriRef<'_>) -> Bytes {
    shown(
        uri.segments()
            .map(|segment| format!("<{segment}>"))
            .collect::<String>(),
    )
}

fn values_of(uri: UriRef<'_>, name: &str) -> Bytes {
    let values = uri.pair_values(name);
    Some(values.iter().fold(Vec::new(), |all, value| {
        [&all, &b"<"[..], value, &b">"[..]].concat()
    }))
}

fn address_of(uri: UriRef<'_>) -> Bytes {
    Some(match uri.host_address()? {
        IpAddr::V4(address) => address.octets().to_vec(),
        IpAddr::V6(address) => address.octets().to_vec(),
    })
}

/// What a reference feeds a hasher.
#[derive(Default)]
struct Fed(u64);

impl Hasher for Fed {
    fn write(&mut self, _: &[u8]) {
        panic!("a reference feeds one number");
    }

    fn write_u64(&mut self, number: u64) {
        self.0 = number;
    }

    fn finish(&self) -> u64 {
        self.0
    }
}

fn hash_of(uri: UriRef<'_>) -> Bytes {
    let mut fed = Fed::default();
    uri.hash(&mut fed);
    shown(fed.finish())
}

/// Whether two references have one origin: a relative one has none.
fn same_origin(left: UriRef<'_>, right: UriRef<'_>) -> Bytes {
    shown(match (Uri::try_from(left), Uri::try_from(right)) {
        (Ok(left), Ok(right)) => left.same_origin(&right),
        _ => false,
    })
}

fn origin_of(text: &[u8]) -> Result<Bytes, Error> {
    match Uri::try_from(text) {
        Err(error) if error.kind() == ErrorKind::NotUri => Ok(None),
        uri => uri.map(|uri| uri.origin().and_then(shown)),
    }
}

fn replaced(text: &[u8], component: &str, value: Option<&str>) -> Result<UriRefBuf, Error> {
    let value = Change::from(value);
    let mut changes = Changes::default();
    *match component {
        "scheme" => &mut changes.scheme,
        "username" => &mut changes.username,
        "password" => &mut changes.password,
        "host" => &mut changes.host,
        "port" => &mut changes.port,
        "path" => &mut changes.path,
        "query" => &mut changes.query,
        "fragment" => &mut changes.fragment,
        _ => panic!("{component}"),
    } = value;
    UriRef::try_from(text)?.change(&changes)
}

fn encoding(component: &str) -> Encoding {
    match component {
        "username" => Encoding::Username,
        "password" => Encoding::Password,
        "segment" => Encoding::Segment,
        "query" => Encoding::Query,
        "fragment" => Encoding::Fragment,
        _ => Encoding::Pair,
    }
}

/// What a call of one text answers, or `None` for another call.
fn answer_of_one(call: &str, text: &[u8]) -> Option<Result<Bytes, Error>> {
    let plain = || std::str::from_utf8(text).expect("UTF-8");
    let read = |answer: fn(UriRef<'_>) -> Bytes| UriRef::try_from(text).map(answer);
    Some(match call {
        "check" => read(|_| shown(true)),
        "is_uri" => Ok(shown(Uri::try_from(text).is_ok())),
        "port" => read(|uri| uri.port().and_then(shown)),
        "port_number" => read(|uri| uri.port_number().and_then(shown)),
        "host_kind" => read(kind_of),
        "host_flags" => read(flags_of),
        "disagreement" => read(disagreement_of),
        "default_port" => Ok(default_port(plain()).and_then(shown)),
        "origin" => origin_of(text),
        "normalize" => read(|uri| shown(uri.normalize())),
        "port_or_default" => read(|uri| uri.port_or_default().and_then(shown)),
        "host_address" => read(address_of),
        "is_normalized" => read(|uri| shown(uri.is_normalized())),
        "is_public" => read(|uri| shown(uri.is_public())),
        "hash" => read(hash_of),
        "is_ambiguous" => is_ambiguous(plain()).map(shown),
        "pairs" => read(pairs_of),
        "segments" => read(segments_of),
        "without_default_port" => read(|uri| shown(uri.without_default_port())),
        "request_target" => read(|uri| uri.request_target().and_then(shown)),
        "mask_password" => read(|uri| shown(uri.mask_password())),
        "decode" => decode(plain()).map(Some),
        "form_decode" => form_decode(plain()).map(Some),
        "trim_link" => Ok(shown(trim_link(plain()))),
        "key" => read(|uri| shown(uri.key(KeyForm::EXACT))),
        "page_key" => read(|uri| shown(uri.key(KeyForm::PAGE))),
        "place_key" => Uri::try_from(text).map(|uri| shown(uri.place_key())),
        "domain_prefix" => domain_prefix(plain()).map(shown),
        "base_prefix" => Uri::try_from(text).map(|uri| shown(uri.base_prefix())),
        _ => return None,
    })
}

/// What a call answers, or `None` for one that the crate doesn't have.
fn answer(call: &str, values: &[Bytes]) -> Option<Result<Bytes, Error>> {
    let text = values[0].as_deref().unwrap();
    let string = |at: usize| {
        let bytes = values.get(at).and_then(|value| value.as_deref());
        bytes.map(|bytes| std::str::from_utf8(bytes).unwrap_or("not UTF-8"))
    };
    let (second, third) = (string(1).unwrap_or(""), string(2));
    let read = || UriRef::try_from(text);
    let uris = || Ok::<_, Error>((Uri::try_from(text)?, Uri::parse(second)?));
    let references = || Ok::<_, Error>((read()?, UriRef::parse(second)?));
    let target = |base: Uri<'_>| base.resolve(&UriRef::parse(second)?);
    Some(match call {
        "pair" => read().map(|uri| uri.pair(second)),
        "pair_values" => read().map(|uri| values_of(uri, second)),
        "same_origin" => references().map(|(left, right)| same_origin(left, right)),
        "with_pair" => read().map(|uri| shown(uri.with_pair(second, third))),
        "with_appended_pair" => read().map(|uri| shown(uri.with_appended_pair(second, third))),
        "without_pairs" => read().and_then(|uri| uri.without_pairs(second)).map(shown),
        "without_pair" => read().map(|uri| shown(uri.without_pair(second))),
        "host_is_within" => read().and_then(|uri| uri.host_is_within(second)).map(shown),
        "host_is_within_any" => read()
            .and_then(|uri| uri.host_is_within_any(second))
            .map(shown),
        "is_within" => uris().map(|(uri, base)| shown(uri.is_within(&base))),
        "resolve" => Uri::try_from(text).and_then(target).map(shown),
        "relativize" => uris().map(|(base, uri)| shown(base.relativize(&uri))),
        "equal" => references().map(|(left, right)| shown(left == right)),
        "compare" => references().map(|(left, right)| shown(left.cmp(&right) as i8)),
        "replace" => replaced(text, second, third).map(shown),
        "encode" => {
            let component = std::str::from_utf8(text).unwrap();
            Ok(shown(encode(
                encoding(component),
                values[1].as_deref().unwrap(),
            )))
        }
        _ => return answer_of_one(call, text),
    })
}

#[test]
fn rows() {
    let path = Path::new(env!("CARGO_MANIFEST_DIR")).join("../rows.tsv");
    let source = fs::read_to_string(path).unwrap();
    let (mut count, mut wrong) = (0, Vec::new());
    for line in source
        .lines()
        .filter(|line| !line.is_empty() && !line.starts_with('#'))
    {
        let fields: Vec<_> = line.split('\t').collect();
        let (expected, values) = fields[1..].split_last().unwrap();
        let values: Vec<_> = values.iter().map(|field| meant(field)).collect();
        let is_same = match answer(fields[0], &values) {
            // A query that is no reference's.
            None if fields[0] == "drop_pairs" => continue,
            None => panic!("no call for {line}"),
            Some(Ok(value)) => value == meant(expected),
            Some(Err(error)) => {
                let words: Vec<_> = expected.split(' ').collect();
                words.len() == 5
                    && error_row(error) == [words[0], words[1], words[2], words[4]].join(" ")
            }
        };
        if !is_same {
            wrong.push(line);
        }
        count += 1;
    }
    assert!(wrong.is_empty(), "{wrong:#?}");
    println!("rows.tsv: {count} rows");
    assert!(count > 400, "{count}");
}

/// A number below `limit`, the same in every run.
fn draw(state: &mut u64, limit: usize) -> usize {
    *state ^= *state << 13;
    *state ^= *state >> 7;
    *state ^= *state << 17;
    (*state >> 33) as usize % limit
}

/// The error of a host, by a reference that has it, in which each delimiter became a byte that no host has.
fn host_error(host: &str) -> Option<(ErrorKind, Option<usize>)> {
    let inside = match host.starts_with('[') {
        true => host.find(']').unwrap_or(host.len()),
        false => 0,
    };
    let spelled = |(at, one): (usize, char)| match one {
        ':' if at < inside => ':',
        '/' | '?' | '#' | '@' | ':' => '^',
        _ => one,
    };
    let text: String = "//"
        .chars()
        .chain(host.char_indices().map(spelled))
        .collect();
    let error = UriRef::parse(&text).err()?;
    Some((error.kind(), error.position().map(|at| at - 2)))
}

#[test]
fn random_hosts() {
    const PIECES: &str = "a Z 7 . : / ? # @ [ ] % %41 %4 [::1] [v1.a v ^ é ]: 80 - & [1:2 [:: ::";
    let pieces: Vec<_> = PIECES.split(' ').collect();
    let mut state = 88_172_645_463_325_252;
    let mut rejected = 0;
    let reference = UriRef::parse("//h").unwrap();
    for _ in 0..5_000 {
        let count = draw(&mut state, 6);
        let host: String = (0..count)
            .map(|_| pieces[draw(&mut state, pieces.len())])
            .collect();
        let found = reference.host_is_within(&host).err();
        let expected = host_error(&host);
        assert_eq!(
            found.map(|error| (error.kind(), error.position())),
            expected,
            "{host}"
        );
        let changes = Changes {
            host: Change::Set(&host),
            ..Changes::default()
        };
        assert_eq!(reference.change(&changes).err(), found, "{host}");
        rejected += usize::from(found.is_some());
        assert!(found.map_or(true, |error| error.component() == Some(Component::Host)));
    }
    assert!((1_000..5_000).contains(&rejected), "{rejected}");
}
