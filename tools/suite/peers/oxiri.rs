//! Answers of oxiri, a line for a line. It reads IRIs, and doesn't divide an authority.
use oxiri::{Iri, IriRef};
use std::io::BufRead;

/// A field's text, or None if it isn't UTF-8, which no `str` holds.
fn text_of(field: &str) -> Option<String> {
    let mut bytes = Vec::new();
    let mut rest = field;
    while let Some(at) = rest.find("\\x") {
        bytes.extend(rest[..at].bytes());
        bytes.push(u8::from_str_radix(&rest[at + 2..at + 4], 16).unwrap());
        rest = &rest[at + 4..];
    }
    bytes.extend(rest.bytes());
    String::from_utf8(bytes).ok()
}

fn field_of(text: Option<&str>) -> String {
    let byte = |one: u8| if (0x20..0x7f).contains(&one) && one != b'\\' { char::from(one).to_string() } else { format!("\\x{one:02x}") };
    text.map_or("\\-".to_string(), |text| text.bytes().map(byte).collect())
}

/// User information, host and port, at the signs that divide them.
fn parts_of(authority: &str) -> [Option<&str>; 3] {
    let (user, place) = authority.rsplit_once('@').map_or((None, authority), |(user, place)| (Some(user), place));
    let colon = place.rfind(':').filter(|at| !place[*at..].contains(']'));
    [user, Some(colon.map_or(place, |at| &place[..at])), colon.map(|at| &place[at + 1..])]
}

fn reading(text: &str) -> Option<String> {
    let iri = IriRef::parse(text).ok()?;
    let [user, host, port] = iri.authority().map_or([None; 3], parts_of);
    let parts = [iri.scheme(), user, host, port, Some(iri.path()), iri.query(), iri.fragment()];
    Some(parts.map(field_of).join("\t"))
}

fn resolution(base: &str, reference: &str) -> Option<String> {
    let target = Iri::parse(base).ok()?.resolve(reference).ok()?;
    Some(field_of(Some(target.as_str())))
}

fn main() {
    for line in std::io::stdin().lock().lines().map(Result::unwrap) {
        let (chapter, fields) = line.split_once('\t').unwrap();
        let texts: Option<Vec<String>> = fields.split('\t').map(text_of).collect();
        let answer = match (chapter, texts.as_deref()) {
            ("reading" | "resolution", None) => "?".to_string(),
            ("reading", Some([text])) => reading(text).map_or("!".to_string(), |answer| "=".to_string() + &answer),
            ("resolution", Some([base, reference])) => resolution(base, reference).map_or("!".to_string(), |answer| "=".to_string() + &answer),
            _ => "?".to_string(),
        };
        println!("{answer}");
    }
}
