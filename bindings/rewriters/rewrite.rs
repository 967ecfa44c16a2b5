//! Makes the links of a page absolute: `rewrite BASE < PAGE`. A link that is no URI stays.

use std::io::Read;
use uriparse_rattle::{escape, Uri, UriRef};

fn main() -> Result<(), Box<dyn std::error::Error>> {
    let base = std::env::args().nth(1).unwrap_or_default();
    let base = Uri::parse(&base)?;
    let mut page = String::new();
    std::io::stdin().read_to_string(&mut page)?;
    let mut pieces = page.split("href=\"");
    print!("{}", pieces.next().unwrap_or_default());
    for piece in pieces {
        let (link, rest) = piece.split_once('"').unwrap_or((piece, ""));
        match UriRef::parse(&escape(link)).and_then(|link| base.resolve(&link)) {
            Ok(target) => print!("href=\"{target}\"{rest}"),
            Err(_) => print!("href=\"{link}\"{rest}"),
        }
    }
    Ok(())
}
