//! The rows of the tests in Rattle, read from the same files, and what Rust alone has.

use std::collections::hash_map::DefaultHasher;
use std::collections::HashMap;
use std::fs;
use std::hash::{Hash, Hasher};
use std::path::Path;
use uriparse_rattle::{
    decode, encode, escape, Encoding, Error, HostKind, Pairs, Uri, UriBuf, UriRef,
};

/// The base of RFC 3986, section 5.4.
const RFC_BASE: &str = "http://a/b/c/d;p?q";

/// A file of tests.
fn read(file: &str) -> String {
    let path = Path::new(env!("CARGO_MANIFEST_DIR"))
        .join("../../tests")
        .join(file);
    fs::read_to_string(&path).unwrap_or_else(|error| panic!("{}: {error}", path.display()))
}

/// The rows of a file: its lines `COMMAND INPUT.. -> EXPECTED`.
fn rows(file: &str) -> Vec<(String, String)> {
    let source = read(file);
    let begin =
        source.find("const ROWS: &str = \"\\\n").expect("rows") + "const ROWS: &str = \"\\\n".len();
    let end = begin + source[begin..].find("\";\n").expect("an end of the rows");
    let text = source[begin..end]
        .replace("\\\"", "\"")
        .replace("\\\\", "\\");
    let row = |line: &str| {
        let (asked, expected) = line.split_once(" -> ").expect("a row");
        (asked.to_owned(), expected.trim_matches('\'').to_owned())
    };
    text.lines().map(row).collect()
}

/// The first word of a line, which may be quoted, and what follows it.
fn word(line: &str) -> (&str, &str) {
    match line.strip_prefix('\'') {
        Some(quoted) => {
            let (word, rest) = quoted.split_once('\'').unwrap_or((quoted, ""));
            (word, rest.trim_start())
        }
        None => line.split_once(' ').unwrap_or((line, "")),
    }
}

/// Compares the answers with the expected values, of the rows whose command has an answer. There are so many of each command.
fn check(file: &str, counts: &[(&str, usize)], answer: impl Fn(&str, &str, &str) -> String) {
    let mut found = HashMap::new();
    for (asked, expected) in rows(file) {
        let (command, rest) = word(&asked);
        if counts.iter().any(|count| count.0 == command) {
            let (first, rest) = word(rest);
            assert_eq!(
                answer(command, first, word(rest).0),
                expected,
                "{file}: {asked}"
            );
            *found.entry(command.to_owned()).or_insert(0) += 1;
        }
    }
    for (command, least) in counts {
        let count = found.get(*command).copied().unwrap_or(0);
        assert!(count >= *least, "{file}: {count} rows of {command}");
    }
}

/// What was made, or the words of the error without its position.
fn text<T: ToString>(made: Result<T, Error>) -> String {
    match made {
        Ok(made) => made.to_string(),
        Err(error) => error.kind().to_string(),
    }
}

fn accepted<T>(made: Result<T, Error>) -> String {
    text(made.map(|_| "accepted"))
}

/// Whether both are equal, if their hashes agree with it.
fn compared<'a>(left: &'a str, right: &'a str) -> String {
    let (left, right) = (UriRef::parse(left).unwrap(), UriRef::parse(right).unwrap());
    let hash = |reference: &UriRef<'_>| {
        let mut hasher = DefaultHasher::new();
        reference.hash(&mut hasher);
        hasher.finish()
    };
    assert_eq!(left == right, hash(&left) == hash(&right), "{left} {right}");
    if left == right { "equal" } else { "different" }.to_owned()
}

/// Each component with its name. The rows have a host and a port as they are printed, so these are those of the printed reference,
/// which is equal.
fn listed(input: &str) -> String {
    let read = UriRef::parse(input).unwrap();
    let mut list = String::new();
    let mut add = |name: &str, component: Option<&str>| {
        if let Some(component) = component {
            list += &format!(
                "{}{name}={component}",
                if list.is_empty() { "" } else { " " }
            );
        }
    };
    let scheme = read.scheme().map(str::to_lowercase);
    add("scheme", scheme.as_deref());
    add("username", read.username());
    add("password", read.password());
    let normal = UriRef::normalize(&read);
    match read.host_kind() {
        Some(HostKind::Name) => add("name", read.host()),
        Some(HostKind::Ipv4) => add("ipv4", read.host()),
        Some(HostKind::Ipv6) => add("ipv6", normal.host()),
        Some(HostKind::IpvFuture) => add("ipvfuture", read.host()),
        None => assert_eq!(read.authority(), None),
    }
    let port = read.port_number().map(|port| port.to_string());
    add("port", port.as_deref());
    let is_slash = read.authority().is_some() && read.path().is_empty();
    add("path", Some(if is_slash { "/" } else { read.path() }));
    add("query", read.query());
    add("fragment", read.fragment());
    list
}

/// Normalized, after what is not allocated was compared with what is.
fn normalized(reference: UriRef<'_>) -> String {
    let normal = reference.normalize();
    let mut out = vec![0; normal.as_str().len()];
    assert_eq!(reference.normalize_into(&mut out), Ok(normal.as_str()));
    assert_eq!(normal.normalize_again(), normal.as_str());
    normal.into_string()
}

trait Again {
    fn normalize_again(&self) -> String;
}

impl Again for uriparse_rattle::UriRefBuf {
    fn normalize_again(&self) -> String {
        self.as_uri_ref().normalize().into_string()
    }
}

fn resolved(base: &str, reference: &str) -> Result<String, Error> {
    let (base, reference) = (Uri::parse(base)?, UriRef::parse(reference)?);
    let target = base.resolve(&reference)?;
    let mut out = vec![0; target.as_str().len()];
    assert_eq!(base.resolve_into(&reference, &mut out), Ok(target.as_str()));
    Ok(target.into_string())
}

fn related(base: &str, uri: &str) -> Result<String, Error> {
    let (base, uri) = (Uri::parse(base)?, Uri::parse(uri)?);
    let reference = base.relativize(&uri);
    let mut out = vec![0; reference.as_str().len()];
    assert_eq!(base.relativize_into(&uri, &mut out), Ok(reference.as_str()));
    assert_eq!(
        base.resolve(&reference.as_uri_ref())?.as_str(),
        base.resolve(&uri.as_uri_ref())?.as_str()
    );
    Ok(reference.into_string())
}

#[test]
fn references() {
    let counts = [("check", 14), ("parts", 34), ("references", 20)];
    check(
        "references/references.rt.txt",
        &counts,
        |command, input, other| match command {
            "check" => accepted(UriRef::parse(input)),
            "parts" => listed(input),
            _ => compared(input, other),
        },
    );
}

/// A row `reference TEXT -> PRINTED` has the error, or a text that is equal to the input.
#[test]
fn printed_references() {
    let rows = rows("references/references.rt.txt");
    let asked = |row: &(String, String)| {
        row.0
            .strip_prefix("reference ")
            .map(|asked| word(asked).0.to_owned())
    };
    let mut count = 0;
    for (input, expected) in rows.iter().filter_map(|row| Some((asked(row)?, &row.1))) {
        match UriRef::parse(&input) {
            Ok(read) => {
                let printed = UriRef::parse(expected).unwrap();
                assert!(
                    read == printed && read.host_kind() == printed.host_kind(),
                    "{input}"
                );
                assert_eq!(read.normalize().as_str(), printed.normalize().as_str());
            }
            Err(error) => assert_eq!(&error.kind().to_string(), expected, "{input}"),
        }
        count += 1;
    }
    assert!(count >= 73, "{count} rows of printed references");
}

#[test]
fn uris() {
    let counts = [
        ("check", 9),
        ("parts", 2),
        ("uris", 2),
        ("normalize", 2),
        ("origin-text", 5),
        ("as-uri", 1),
    ];
    check(
        "references/uris.rt.txt",
        &counts,
        |command, input, other| match command {
            "check" => accepted(Uri::parse(input)),
            "parts" => listed(input),
            "uris" => compared(input, other),
            "normalize" => normalized(Uri::parse(input).unwrap().as_uri_ref()),
            "as-uri" => {
                text(Uri::try_from(UriRef::parse(input).unwrap()).map(|uri| uri.normalize()))
            }
            _ => Uri::parse(input)
                .unwrap()
                .origin()
                .unwrap_or_else(|| "none".to_owned()),
        },
    );
}

#[test]
fn normal_forms() {
    for (file, command, least) in [
        ("references/normal_forms.rt.txt", "normalize", 31),
        ("references/views.rt.txt", "normal", 10),
    ] {
        check(file, &[(command, least)], |_, input, _| {
            normalized(UriRef::parse(input).unwrap())
        });
    }
}

#[test]
fn resolutions() {
    let counts = [("rfc", 42), ("resolve", 36)];
    check(
        "references/resolutions.rt.txt",
        &counts,
        |command, first, second| {
            let (base, reference) = if command == "rfc" {
                (RFC_BASE, first)
            } else {
                (first, second)
            };
            text(resolved(base, reference))
        },
    );
}

#[test]
fn relations() {
    check(
        "relations/relations.rt.txt",
        &[("relate", 97)],
        |_, base, uri| text(related(base, uri)),
    );
}

#[test]
fn escapes() {
    check(
        "references/escapes.rt.txt",
        &[("escape", 16)],
        |_, input, _| {
            let escaped = escape(input);
            assert_eq!(escape(&escaped), escaped);
            escaped
        },
    );
}

#[test]
fn codings() {
    let encodings = [
        ("encode-username", Encoding::Username),
        ("encode-password", Encoding::Password),
        ("encode-segment", Encoding::Segment),
        ("encode-query", Encoding::Query),
        ("encode-fragment", Encoding::Fragment),
    ];
    let counts = [
        ("pairs", 4),
        ("decode-segment", 10),
        ("decode-query", 10),
        ("encode-username", 3),
        ("encode-password", 3),
        ("encode-segment", 11),
        ("encode-query", 11),
        ("encode-fragment", 3),
    ];
    check(
        "components/codings.rt.txt",
        &counts,
        |command, input, _| match command {
            "pairs" => match UriRef::parse(&format!("?{input}")) {
                Ok(reference) if reference.fragment().is_none() => {
                    listed_pairs(reference.query_pairs())
                }
                _ => "invalid query character".to_owned(),
            },
            "decode-segment" | "decode-query" => match decode(input) {
                Ok(bytes) => String::from_utf8(bytes)
                    .unwrap_or_else(|bytes| format!("{:?}", bytes.as_bytes())),
                Err(error) => error.kind().to_string(),
            },
            _ => {
                let encoding = encodings
                    .iter()
                    .find(|encoding| encoding.0 == command)
                    .unwrap()
                    .1;
                let encoded = encode(encoding, input);
                assert_eq!(decode(&encoded).unwrap(), input.as_bytes());
                encoded
            }
        },
    );
}

fn listed_pairs(pairs: Pairs<'_>) -> String {
    let shown = |(name, value): (&str, Option<&str>)| match value {
        Some(value) => format!("({name}:{value})"),
        None => format!("({name})"),
    };
    pairs.map(shown).collect()
}

/// The columns of tests/hostile.tsv, whose `\xHH` stand for bytes.
fn hostile_rows() -> Vec<Vec<String>> {
    let plain = |field: &str| {
        let mut pieces = field.split("\\x");
        let mut text = pieces.next().unwrap().to_owned();
        for piece in pieces {
            text.push(u8::from_str_radix(&piece[..2], 16).unwrap().into());
            text += &piece[2..];
        }
        text
    };
    let tsv = read("hostile.tsv");
    let lines = tsv.lines().filter(|line| !line.starts_with('#'));
    lines
        .map(|line| line.split('\t').map(plain).collect())
        .collect()
}

/// The target of a redirect, if it is allowed.
fn allowed_target(page: &Uri<'_>, location: &str, directory: Option<&Uri<'_>>) -> Option<UriBuf> {
    let target = page.resolve(&UriRef::parse(location).ok()?).ok()?;
    let uri = target.as_uri();
    let is_allowed = uri.scheme().eq_ignore_ascii_case("https")
        && uri.disagreement().is_none()
        && uri.host_kind() == Some(HostKind::Name)
        && uri.host_is_within_any("example.com example.org") == Ok(true)
        && matches!(uri.port_number(), None | Some(443))
        && directory.map_or(true, |directory| uri.is_within(directory));
    is_allowed.then_some(target)
}

/// The answer to a row of tests/hostile.tsv.
fn answer_to(call: &str, text: &str, other: &str) -> Result<String, Error> {
    let yes = |is_true| if is_true { "yes" } else { "no" }.to_owned();
    Ok(match call {
        "within" => yes(Uri::parse(text)?.is_within(&Uri::parse(other)?)),
        "host-within" => yes(UriRef::parse(text)?.host_is_within(other)?),
        "host-flags" => {
            let read = UriRef::parse(text)?;
            let sum = u8::from(read.hides_address()) + 2 * u8::from(read.may_be_numeric());
            (sum + 4 * u8::from(read.has_escapes())).to_string()
        }
        _ => {
            let page = Uri::parse(other)?;
            let directory = Some(&page).filter(|_| call == "redirect-below");
            yes(allowed_target(&page, text, directory).is_some())
        }
    })
}

#[test]
fn hostile_input() {
    let rows = hostile_rows();
    for row in &rows {
        let answer = answer_to(&row[1], &row[2], &row[3]).unwrap_or_else(|_| "rejected".to_owned());
        assert_eq!(answer, row[4], "{}: {} {}", row[1], row[2], row[3]);
    }
    assert!(rows.len() > 700, "{} rows of hostile input", rows.len());
}

/// The redirect check that the rows try is that of the page.
#[test]
fn redirect_check_of_the_page() {
    let page = include_str!("../README.md");
    let begin = page.find("/// The target of a redirect").unwrap();
    let check = &page[begin..begin + page[begin..].find("\n}\n").unwrap()];
    assert!(include_str!("rows.rs").contains(check));
}

/// The rows of long texts: a front, a count, a text that is repeated so often, and a back.
#[test]
fn limits() {
    let mut count = 0;
    for (asked, expected) in rows("references/limits.rt.txt") {
        let (command, rest) = word(&asked);
        let (front, rest) = word(rest);
        let (times, rest) = word(rest);
        let (middle, rest) = word(rest);
        let long = middle.repeat(times.parse().unwrap());
        let back = word(rest).0;
        let whole = format!("{front}{long}{back}");
        let answer = match command {
            "check" => accepted(UriRef::parse(&whole)),
            "reference" | "normalize" => text(UriRef::parse(&whole).map(|read| read.normalize())),
            "resolve" => text(resolved(&format!("{front}{long}"), back)),
            _ => continue,
        };
        assert_eq!(answer, expected, "limits: {asked}");
        count += 1;
    }
    assert!(count >= 18, "{count} rows of long texts");
}

/// The places of faults: `("TEXT", PLACE, URIReferenceError::..(COMPONENT::REASON..))`.
#[test]
fn positions() {
    let source = read("no_alloc/faults.rt.txt");
    let rows = source
        .lines()
        .filter_map(|line| line.trim_start().strip_prefix("(\""));
    let mut count = 0;
    for row in rows {
        let (input, rest) = row.split_once("\", ").unwrap();
        let (place, rest) = rest.split_once(", ").unwrap();
        let input = input.replace("\\\"", "\"");
        let error = UriRef::parse(&input).unwrap_err();
        assert_eq!(error.position(), place.parse().ok(), "{input}");
        assert_eq!(
            squeezed(&error.kind().to_string()),
            squeezed(&words_of(rest)),
            "{input}"
        );
        count += 1;
    }
    assert!(count >= 36, "{count} rows of positions");
}

/// The words of the innermost reason, such as `InvalidCharacter` of `Path(PathError::InvalidCharacter)`, after those of its component.
fn words_of(reason: &str) -> String {
    let names = reason.split(['(', ')']);
    let innermost = names
        .filter(|name| name.contains("::"))
        .fold("", |_, name| name);
    let (component, reason) = innermost.split_once("Error::").unwrap();
    match component {
        "URIReference" => reason.replacen("Path", "PathURIReference", 1),
        _ if reason == "Overflow" => format!("{component}{reason}"),
        _ => reason.replacen("Invalid", &format!("Invalid{component}"), 1),
    }
}

/// The letters alone, in lower case.
fn squeezed(words: &str) -> String {
    words.replace(' ', "").to_lowercase()
}
