//! The suite's answers by the crate for Rust, a line for a line.

use std::cmp::Ordering;
use std::io::{self, BufRead, Write};
use uriparse_rattle::{Change, Changes, Component, Error, HostKind, Uri, UriRef};

/// The text of a field: `\xHH` is a byte, and `\-` an absent component.
fn text_of(field: &str) -> Option<String> {
    if field == "\\-" {
        return None;
    }
    let mut pieces = field.split("\\x");
    let mut bytes = pieces.next().unwrap_or("").as_bytes().to_vec();
    for piece in pieces {
        bytes.push(u8::from_str_radix(&piece[..2], 16).expect("two hexadecimal digits"));
        bytes.extend_from_slice(piece[2..].as_bytes());
    }
    Some(String::from_utf8(bytes).expect("UTF-8"))
}

fn field_of(text: Option<&str>) -> String {
    let Some(text) = text else {
        return "\\-".to_string();
    };
    let mut field = String::new();
    for byte in text.bytes() {
        match byte {
            b'\\' | 0..=0x1f | 0x7f..=0xff => field += &format!("\\x{byte:02x}"),
            _ => field.push(char::from(byte)),
        }
    }
    field
}

/// The component that an error is about.
fn component_of(error: &Error) -> &'static str {
    match error.component() {
        Some(Component::Username) => "username",
        Some(Component::Password) => "password",
        Some(Component::Host) => "host",
        Some(Component::Port) => "port",
        Some(Component::Path) => "path",
        Some(Component::Query) => "query",
        Some(Component::Fragment) => "fragment",
        Some(Component::Scheme) => "scheme",
        _ => "none",
    }
}

/// A rejection, with the index of the input.
fn rejected(input: usize) -> impl Fn(Error) -> String {
    move |error| format!("!{input}\t{}", component_of(&error))
}

fn reading(text: &str) -> Result<String, String> {
    let read = UriRef::parse(text).map_err(|error| {
        let position = error.position().expect("a position in a text that is read");
        format!("{}\t{position}", rejected(0)(error))
    })?;
    let user = match (read.username(), read.password()) {
        (Some(name), Some(password)) => Some(format!("{name}:{password}")),
        (name, _) => name.map(str::to_string),
    };
    let kind = read.host_kind().map(|kind| match kind {
        HostKind::Name => "name",
        HostKind::Ipv4 => "ipv4",
        HostKind::Ipv6 => "ipv6",
        HostKind::IpvFuture => "ipvfuture",
    });
    let fields = [
        read.scheme(),
        user.as_deref(),
        read.host(),
        read.port(),
        Some(read.path()),
        read.query(),
        read.fragment(),
        kind,
    ];
    Ok(fields.map(field_of).join("\t"))
}

fn equality(left: &str, right: &str) -> Result<String, String> {
    let left = UriRef::parse(left).map_err(rejected(0))?;
    let right = UriRef::parse(right).map_err(rejected(1))?;
    let order = match left.cmp(&right) {
        Ordering::Less => -1,
        Ordering::Equal => 0,
        Ordering::Greater => 1,
    };
    Ok(format!("{}\t{order}", left == right))
}

fn edited(text: &str, fields: &[&str]) -> Result<String, String> {
    let values: Vec<Option<String>> = fields
        .iter()
        .map(|field| field.strip_prefix('=').and_then(text_of))
        .collect();
    let change = |index: usize| match fields[index] {
        "" => Change::Keep,
        _ => Change::from(values[index].as_deref()),
    };
    let changes = Changes {
        scheme: change(0),
        username: change(1),
        password: change(2),
        host: change(3),
        port: change(4),
        path: change(5),
        query: change(6),
        fragment: change(7),
    };
    let read = UriRef::parse(text).map_err(rejected(0))?;
    let result = read.change(&changes).map_err(rejected(0))?;
    Ok(field_of(Some(result.as_str())))
}

fn normal(text: &str) -> Result<String, String> {
    let read = UriRef::parse(text).map_err(rejected(0))?;
    Ok(field_of(Some(read.normalize().as_str())))
}

fn resolution(base: &str, reference: &str) -> Result<String, String> {
    let base = Uri::parse(base).map_err(rejected(0))?;
    let reference = UriRef::parse(reference).map_err(rejected(1))?;
    let target = base.resolve(&reference).map_err(rejected(1))?;
    Ok(field_of(Some(target.as_str())))
}

fn relative(base: &str, uri: &str) -> Result<String, String> {
    let base = Uri::parse(base).map_err(rejected(0))?;
    let uri = Uri::parse(uri).map_err(rejected(1))?;
    Ok(field_of(Some(base.relativize(&uri).as_str())))
}

fn within(uri: &str, base: &str) -> Result<String, String> {
    let uri = Uri::parse(uri).map_err(rejected(0))?;
    let base = Uri::parse(base).map_err(rejected(1))?;
    Ok(uri.is_within(&base).to_string())
}

fn answer_to(line: &str) -> Result<String, String> {
    let fields: Vec<&str> = line.split('\t').collect();
    let input = |index: usize| text_of(fields[index]).expect("an input");
    match fields[0] {
        "reading" => reading(&input(1)),
        "equality" => equality(&input(1), &input(2)),
        "normal" => normal(&input(1)),
        "resolution" => resolution(&input(1), &input(2)),
        "relative" => relative(&input(1), &input(2)),
        "edits" => edited(&input(1), &fields[2..]),
        "within" => within(&input(1), &input(2)),
        chapter => panic!("no chapter {chapter}"),
    }
}

fn main() -> io::Result<()> {
    let mut out = io::BufWriter::new(io::stdout().lock());
    for line in io::stdin().lock().lines() {
        match answer_to(&line?) {
            Ok(fields) => writeln!(out, "={fields}")?,
            Err(rejection) => writeln!(out, "{rejection}")?,
        }
    }
    Ok(())
}
