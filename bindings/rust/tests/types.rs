//! What Rust's types add: owned forms, conversions, maps, buffers and threads.

use std::collections::{BTreeMap, HashMap, HashSet};
use std::convert::TryFrom;
use uriparse_rattle::{
    decode, default_port, AsUriRef, BufferError, Change, Changes, Component, Error, ErrorKind,
    HostKind, Pairs, Uri, UriBuf, UriRef, UriRefBuf,
};

fn is_shared<T: Send + Sync + Unpin + 'static>() {}

#[test]
fn types_cross_threads() {
    is_shared::<UriRef<'static>>();
    is_shared::<Uri<'static>>();
    is_shared::<UriRefBuf>();
    is_shared::<UriBuf>();
    is_shared::<Error>();
    is_shared::<Pairs<'static>>();
}

#[test]
fn a_component_outlives_its_reference() {
    let text = String::from("http://h/a?b#c");
    let host = { UriRef::parse(&text).unwrap().host() };
    let query = { Uri::parse(&text).unwrap().query() };
    assert_eq!((host, query), (Some("h"), Some("b")));
}

#[test]
fn owned_forms() {
    let read: UriRefBuf = "HTTP://u:p@h:8/a?b#c".parse().unwrap();
    let uri = UriBuf::try_from(read.clone()).unwrap();
    assert_eq!((read.scheme(), uri.scheme()), (Some("HTTP"), "HTTP"));
    assert_eq!(
        (uri.authority(), uri.username(), uri.password()),
        (Some("u:p@h:8"), Some("u"), Some("p"))
    );
    assert_eq!(
        (uri.host(), uri.host_kind()),
        (Some("h"), Some(HostKind::Name))
    );
    assert_eq!((uri.port(), uri.port_number()), (Some("8"), Some(8)));
    assert_eq!(
        (uri.path(), uri.query(), uri.fragment()),
        ("/a", Some("b"), Some("c"))
    );
    assert_eq!(uri.query_pairs().next(), Some(("b", None)));
    assert_eq!(uri.as_uri().as_uri_ref(), read.as_uri_ref());
    assert_eq!(uri.as_uri().to_buf(), uri);
    assert_eq!(UriRefBuf::from(uri.clone()), read);
    assert_eq!(String::from(uri), read.into_string());
}

#[test]
fn conversions() {
    let not_uri = |error: Error| error.kind() == ErrorKind::NotUri && error.position().is_none();
    let reference = UriRef::parse("a").unwrap();
    assert!(!reference.is_uri() && not_uri(Uri::try_from(reference).unwrap_err()));
    assert!(not_uri(UriBuf::try_from(reference.to_buf()).unwrap_err()));
    assert!(not_uri("1:a".parse::<UriBuf>().unwrap_err()));
    assert!(not_uri(UriBuf::try_from(String::from("//h")).unwrap_err()));
    assert_eq!(
        UriRefBuf::try_from(String::from("a b"))
            .unwrap_err()
            .position(),
        Some(1)
    );
    assert_eq!(UriRef::try_from(&b"//h"[..]).unwrap().host(), Some("h"));
    let error = UriRef::try_from(&b"a\xff"[..]).unwrap_err();
    assert_eq!(error.position(), Some(1));
    assert_eq!(Uri::try_from(&b"s:a"[..]).unwrap().path(), "a");
    assert!(not_uri(Uri::try_from(&b"a"[..]).unwrap_err()));
    let uri = Uri::try_from("s:").unwrap();
    assert_eq!((UriRef::from(uri).path(), uri.as_ref()), ("", "s:"));
}

#[test]
fn printing() {
    let uri = Uri::parse("s:a").unwrap();
    assert_eq!(format!("{uri}|{uri:>5}|{uri:?}"), "s:a|  s:a|Uri(\"s:a\")");
    assert_eq!(format!("{:?}", uri.to_buf()), "UriBuf(\"s:a\")");
    assert_eq!(
        format!("{:?}", uri.as_uri_ref().to_buf()),
        "UriRefBuf(\"s:a\")"
    );
    let error: Box<dyn std::error::Error> = Box::new(Uri::parse("http://h:8o").unwrap_err());
    assert_eq!(error.to_string(), "invalid port character at byte 10");
}

#[test]
fn kinds_have_codes() {
    let error = UriRef::parse("//h:65536").unwrap_err();
    assert_eq!(
        (error.kind().code(), error.component()),
        (0x42, Some(Component::Port))
    );
    assert_eq!(ErrorKind::Unknown(0x1f).code(), 0x1f);
    let colon = ErrorKind::SchemelessPathStartsWithColonSegment;
    let components = [
        (ErrorKind::NotUri, Component::Scheme),
        (ErrorKind::MissingHost, Component::Host),
        (ErrorKind::InvalidNames, Component::Query),
        (ErrorKind::ExceededMaximumPathLength, Component::Path),
        (ErrorKind::AbsolutePathStartsWithTwoSlashes, Component::Path),
        (colon, Component::Path),
    ];
    for (kind, component) in components {
        assert_eq!(kind.component(), Some(component));
    }
    assert_eq!(ErrorKind::Unknown(9).component(), None);
    assert_eq!(ErrorKind::Unknown(0x200).to_string(), "error 0x200");
}

#[test]
fn maps_by_canonical_spelling() {
    let mut counts = HashMap::new();
    for link in [
        "http://h/%7e",
        "HTTP://H/~",
        "http://h/a/../~",
        "http://%31.2.3.4",
        "http://1.2.3.4",
    ] {
        *counts.entry(UriRef::parse(link).unwrap()).or_insert(0) += 1;
    }
    assert_eq!(counts.len(), 4);
    assert_eq!(counts[&UriRef::parse("http://h/~").unwrap()], 2);
}

#[test]
fn buffers() {
    let base = Uri::parse("http://h/a/b").unwrap();
    let link = UriRef::parse("c").unwrap();
    let mut out = *b"................";
    assert_eq!(base.resolve_into(&link, &mut out), Ok("http://h/a/c"));
    assert_eq!(&out[12..], b"....");
    assert_eq!(
        base.resolve_into(&link, &mut []),
        Err(BufferError::TooSmall { needed: 12 })
    );
    assert_eq!(UriRef::parse("").unwrap().normalize_into(&mut []), Ok(""));
    let long = format!("http://h{}", "/".repeat(1_000_000));
    let long = Uri::parse(&long).unwrap();
    let too_long = UriRef::parse("a/b").unwrap();
    assert_eq!(
        long.resolve_into(&too_long, &mut out),
        Err(BufferError::TooManySegments)
    );
    assert_eq!(
        long.resolve(&too_long).unwrap_err().kind(),
        ErrorKind::ExceededMaximumPathLength
    );
    assert_eq!(
        BufferError::TooSmall { needed: 12 }.to_string(),
        "buffer too small: 12 bytes are enough"
    );
}

#[test]
fn longest_relative_references() {
    let base = format!("s:/{}x", "a/".repeat(999_999));
    let base = Uri::parse(&base).unwrap();
    for text in ["s:/b", "s:/b/c/d", "s:/b/c:d", "s:/a/b", "s://h"] {
        let uri = Uri::parse(text).unwrap();
        let reference = base.relativize(&uri);
        assert_eq!(
            base.resolve(&reference.as_uri_ref()).unwrap(),
            uri.normalize()
        );
    }
}

#[test]
fn written_to_a_larger_buffer() {
    let address = Uri::parse("s://[1:2:3:4:5:6:1.2.3.4]").unwrap();
    assert_eq!(address.normalize().as_str(), "s://[1:2:3:4:5:6:102:304]/");
    let bytes: Vec<u8> = (0..=255).collect();
    let encoded = uriparse_rattle::encode(uriparse_rattle::Encoding::Segment, &bytes);
    assert_eq!(decode(&encoded).unwrap(), bytes);
}

#[test]
fn faults_of_decode() {
    let position = |text: &str| decode(text).unwrap_err().position();
    assert_eq!(
        (
            position("a%4"),
            position("%"),
            position("ab#%"),
            position("é")
        ),
        (Some(1), Some(0), Some(2), Some(0))
    );
    assert_eq!(
        decode("a#").unwrap_err().kind(),
        ErrorKind::InvalidQueryCharacter
    );
    assert_eq!(
        decode("%zz").unwrap_err().kind(),
        ErrorKind::InvalidQueryPercentEncoding
    );
}

#[test]
fn pairs_of_any_string() {
    assert_eq!(UriRef::parse("a").unwrap().query_pairs().count(), 0);
    assert_eq!(
        UriRef::parse("?")
            .unwrap()
            .query_pairs()
            .collect::<Vec<_>>(),
        [("", None)]
    );
    let pairs: Vec<_> = Pairs::new("ä=ö&=&").collect();
    assert_eq!(pairs, [("ä", Some("ö")), ("", Some("")), ("", None)]);
}

#[test]
fn order() {
    let rows = [
        "a",
        "a#",
        "a?",
        "//z",
        "//2.0.0.0",
        "//10.0.0.0",
        "//h:9",
        "//h:10",
        "http:b",
        "https:a",
    ];
    let mut read: Vec<_> = rows
        .iter()
        .rev()
        .map(|row| UriRef::parse(row).unwrap())
        .collect();
    read.sort();
    let texts: Vec<_> = read.iter().map(UriRef::as_str).collect();
    assert_eq!(
        texts,
        [
            "a",
            "a#",
            "a?",
            "//h:9",
            "//h:10",
            "//z",
            "//2.0.0.0",
            "//10.0.0.0",
            "http:b",
            "https:a"
        ]
    );
    let (left, right) = ("http://h/%7e", "HTTP://H/~");
    assert!(UriRef::parse(left).unwrap() <= UriRef::parse(right).unwrap());
    assert!(Uri::parse(left)
        .unwrap()
        .cmp(&Uri::parse(right).unwrap())
        .is_eq());
    assert!(left.parse::<UriBuf>().unwrap() >= right.parse::<UriBuf>().unwrap());
    assert!("a".parse::<UriRefBuf>().unwrap() < "b".parse().unwrap());
}

#[test]
fn checks() {
    let is_within = |uri, base| {
        Uri::parse(uri)
            .unwrap()
            .is_within(&Uri::parse(base).unwrap())
    };
    assert!(is_within("HTTP://H:80/x/../a/b?q", "http://h/a/c"));
    assert!(!is_within("http://h/appX", "http://h/app/"));
    assert!(!is_within("http://h/app/..;/admin", "http://h/app/"));
    let host_is_within = |text, domain| UriRef::parse(text).unwrap().host_is_within(domain);
    assert_eq!(
        host_is_within("//WWW.Example.com.", "example.com"),
        Ok(true)
    );
    assert_eq!(host_is_within("//1.2.3.4", "4"), Ok(false));
    assert_eq!(host_is_within("/a", "h"), Ok(false));
    let error = host_is_within("//h", "a b").unwrap_err();
    assert_eq!(
        (error.kind(), error.component(), error.position()),
        (
            ErrorKind::InvalidHostCharacter,
            Some(Component::Host),
            Some(1)
        )
    );
    let hidden = UriRef::parse("//%31.2.3.4").unwrap();
    assert!(hidden.hides_address() && hidden.may_be_numeric());
    let plain = UriRef::parse("//example.com").unwrap();
    assert!(!plain.hides_address() && !plain.may_be_numeric() && !plain.has_escapes());
    assert!(UriRef::parse("//a%2Fb").unwrap().has_escapes());
    assert_eq!(
        (default_port("HTTPS"), default_port("h:")),
        (Some(443), None)
    );
}

#[test]
fn changes() {
    fn change(text: &str, changes: &Changes<'_>) -> Result<UriRefBuf, Error> {
        UriRef::parse(text).unwrap().change(changes)
    }
    let changes = Changes {
        host: Change::Set("h"),
        port: Change::Set("80"),
        ..Changes::default()
    };
    assert_eq!(change("a:b/c", &changes).unwrap().as_str(), "a://h:80/b/c");
    let same = change("HTTP://u@h:/%7e?#", &Changes::default()).unwrap();
    assert_eq!(same.as_str(), "HTTP://u@h:/%7e?#");
    let rejected = |text, changes: Changes<'_>| change(text, &changes).unwrap_err();
    let port = Changes {
        port: Change::Set("1"),
        ..Changes::default()
    };
    assert_eq!(rejected("a", port).kind(), ErrorKind::MissingHost);
    let scheme = Changes {
        scheme: Change::Set("1"),
        ..Changes::default()
    };
    let error = rejected("s:a", scheme);
    assert_eq!(error.kind(), ErrorKind::SchemeStartsWithNonAlphabetic);
    assert_eq!(error.component(), Some(Component::Scheme));
    let none = Changes {
        scheme: Change::Remove,
        ..Changes::default()
    };
    assert_eq!(
        rejected("s:a:b", none).kind(),
        ErrorKind::SchemelessPathStartsWithColonSegment
    );
    let uri = Uri::parse("s:a").unwrap();
    assert_eq!(uri.change(&none).unwrap_err().kind(), ErrorKind::NotUri);
    assert_eq!(uri.change(&changes).unwrap().as_str(), "s://h:80/a");
}

#[test]
fn pairs_by_name() {
    let read = |text| UriRef::parse(text).unwrap();
    assert_eq!(read("?%61=%FF&a=2").pair("a"), Some(vec![0xff]));
    assert_eq!(
        (read("?a").pair("a"), read("?a").pair("b")),
        (Some(vec![]), None)
    );
    assert_eq!(read("a").pair(""), None);
    assert_eq!(read("?").with_pair("n", None).as_str(), "?n");
    assert_eq!(
        read("a#f").with_appended_pair("ü", Some("c d+")).as_str(),
        "a?%C3%BC=c%20d%2B#f"
    );
    let long = "[".repeat(9999);
    let text = read("?a").with_pair("a", Some(&long)).into_string();
    assert_eq!(text, format!("?a={}", "%5B".repeat(9999)));
    assert_eq!(read(&text).pair("a"), Some(long.into_bytes()));
    assert_eq!(
        read("?utm_a#f").without_pairs("utm_*").unwrap().as_str(),
        "#f"
    );
    assert_eq!(read("a").without_pairs("b").unwrap().as_str(), "a");
    let error = read("?a").without_pairs("b#").unwrap_err();
    assert_eq!(
        (error.kind(), error.position()),
        (ErrorKind::InvalidNames, Some(1))
    );
    let uri = Uri::parse("s:?a=1").unwrap();
    assert_eq!(uri.with_pair("a", Some("2")).as_str(), "s:?a=2");
    assert_eq!(
        uri.with_appended_pair("a", Some("2")).as_str(),
        "s:?a=1&a=2"
    );
    assert_eq!(uri.without_pairs("a").unwrap().as_str(), "s:");
    assert_eq!(uri.pair("a").as_deref(), Some(&b"1"[..]));
}

#[test]
fn errors_without_a_place_print_none() {
    let printed = |error: Error| (error.position(), error.to_string());
    let none = |words: &str| (None, words.to_owned());
    assert_eq!(printed(Uri::parse("a").unwrap_err()), none("not URI"));
    let port = Changes {
        port: Change::Set("1"),
        ..Changes::default()
    };
    let missing = UriRef::parse("a").unwrap().change(&port).unwrap_err();
    assert_eq!(
        printed(missing),
        none("user name, password or port without a host")
    );
    let long = format!("s:{}", "/a".repeat(1_000_000));
    let base = Uri::parse(&long).unwrap();
    let error = base.resolve(&UriRef::parse("b/c").unwrap()).unwrap_err();
    assert_eq!(printed(error), none("exceeded maximum path length"));
    assert_eq!(
        printed(UriRef::parse("a b").unwrap_err()),
        (Some(1), "invalid path character at byte 1".to_owned())
    );
}

#[test]
fn owned_types_have_the_calls_of_views() {
    let uri: UriBuf = "http://h/b?a=1&b".parse().unwrap();
    assert_eq!(uri.host_is_within("h"), Ok(true));
    assert!(!(uri.hides_address() || uri.may_be_numeric() || uri.has_escapes()));
    assert!(uri.is_within(&Uri::parse("http://h/").unwrap()));
    assert_eq!(uri.pair("a"), Some(b"1".to_vec()));
    assert_eq!(uri.with_pair("a", None).as_str(), "http://h/b?a&b");
    let appended = uri.with_appended_pair("a", None);
    assert_eq!(appended.as_str(), "http://h/b?a=1&b&a");
    assert_eq!(uri.without_pairs("a").unwrap().as_str(), "http://h/b?b");
    assert_eq!(uri.without_pair("b").as_str(), "http://h/b?a=1");
    assert_eq!(uri.normalize(), uri);
    assert_eq!(uri.origin().as_deref(), Some("http://h"));
    let reference = UriRef::parse("c").unwrap();
    assert_eq!(uri.resolve(&reference).unwrap().as_str(), "http://h/c");
    let base = Uri::parse("http://h/").unwrap();
    assert_eq!(
        uri.resolve(&uri.relativize(&base).as_uri_ref()).unwrap(),
        base.to_buf()
    );
    let changes = Changes {
        query: Change::from(None),
        host: base.host().into(),
        ..Changes::default()
    };
    assert_eq!(uri.change(&changes).unwrap().as_str(), "http://h/b");

    let reference: UriRefBuf = "//127.1?a".parse().unwrap();
    assert!(reference.may_be_numeric() && !reference.is_uri());
    let error = reference.host_is_within("h:1").unwrap_err();
    assert_eq!(error.position(), Some(1));
    assert_eq!(reference.change(&changes).unwrap().as_str(), "//h");
    assert_eq!(reference.without_pair("a").as_str(), "//127.1");
    assert!(Uri::parse("s://%31.2.3.4").unwrap().hides_address());
}

#[test]
fn keys_are_found_by_views() {
    let key: UriRefBuf = "http://h/~".parse().unwrap();
    let uri: UriBuf = "HTTP://h/~".parse().unwrap();
    let link = UriRef::parse("HTTP://h/%7e").unwrap();
    let other = UriRef::parse("a").unwrap();
    let map: HashMap<_, _> = [(key.clone(), 1)].into_iter().collect();
    let tree: BTreeMap<_, _> = [(key.clone(), 1)].into_iter().collect();
    let set: HashSet<UriBuf> = [uri.clone()].into_iter().collect();
    let view = Uri::parse("http://h/~").unwrap();
    let views: [&dyn AsUriRef; 4] = [&link, &key, &uri, &view];
    for view in views {
        assert_eq!((map.get(view), tree.get(view)), (Some(&1), Some(&1)));
        assert!(set.contains(view));
    }
    let other: &dyn AsUriRef = &other;
    assert_eq!((map.get(other), tree.get(other)), (None, None));
}
