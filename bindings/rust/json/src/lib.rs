//! Links of JSON. The page of the crate shows this:
//!
//! ```
//! use serde::{Deserialize, Serialize};
//! use uriparse_rattle::UriBuf;
//!
//! #[derive(Serialize, Deserialize)]
//! struct Bookmark {
//!     page: UriBuf,
//! }
//!
//! let bookmark: Bookmark = serde_json::from_str(r#"{"page":"http://h/a"}"#).unwrap();
//! assert_eq!(bookmark.page.host(), Some("h"));
//! assert_eq!(serde_json::to_string(&bookmark).unwrap(), r#"{"page":"http://h/a"}"#);
//!
//! let error = serde_json::from_str::<Bookmark>(r#"{"page":"a b"}"#).err().unwrap();
//! assert_eq!(error.to_string(), "invalid path character at byte 1 at line 1 column 13");
//! ```

#[cfg(test)]
mod tests {
    use serde::{Deserialize, Serialize};
    use serde_json::{from_reader, from_str, from_value, to_string, Value};
    use uriparse_rattle::{Uri, UriBuf, UriRef, UriRefBuf};

    /// What is read of JSON and written again.
    fn again<'de, T: Serialize + Deserialize<'de>>(json: &'de str) -> Result<String, String> {
        let read: T = from_str(json).map_err(|error| error.to_string())?;
        Ok(to_string(&read).unwrap())
    }

    #[test]
    fn round_trips() {
        for json in [
            r#""http://u:p@h:080/a/../%7e?q#""#,
            r#""HTTP://[::1]""#,
            r#""mailto:a@b.c""#,
        ] {
            assert_eq!(again::<Uri<'_>>(json).as_deref(), Ok(json));
            assert_eq!(again::<UriBuf>(json).as_deref(), Ok(json));
            assert_eq!(again::<UriRef<'_>>(json).as_deref(), Ok(json));
            assert_eq!(again::<UriRefBuf>(json).as_deref(), Ok(json));
        }
        for json in [r#""""#, r#""../a?q""#, r#""//h""#] {
            assert_eq!(again::<UriRef<'_>>(json).as_deref(), Ok(json));
            assert_eq!(again::<UriRefBuf>(json).as_deref(), Ok(json));
        }
    }

    #[test]
    fn a_borrowed_form_borrows_from_the_input() {
        let json = String::from(r#"["http://h/a", "b"]"#);
        let (uri, reference): (Uri<'_>, UriRef<'_>) = from_str(&json).unwrap();
        let input = json.as_bytes().as_ptr_range();
        assert!(input.contains(&uri.as_str().as_ptr()));
        assert!(input.contains(&reference.as_str().as_ptr()));
    }

    /// The words of an error, without the place in JSON that follows them.
    fn rejected<'de, T: Serialize + Deserialize<'de>>(json: &'de str) -> String {
        let error = again::<T>(json).unwrap_err();
        error.split(" at line ").next().unwrap().to_string()
    }

    #[test]
    fn invalid_strings() {
        let json = r#""http://user:secret@h/a b""#;
        let words = "invalid path character at byte 22";
        assert_eq!(rejected::<Uri<'_>>(json), words);
        assert_eq!(rejected::<UriBuf>(json), words);
        assert_eq!(rejected::<UriRef<'_>>(json), words);
        assert_eq!(rejected::<UriRefBuf>(json), words);
        assert_eq!(rejected::<Uri<'_>>(r#""//h""#), "not URI");
        assert_eq!(rejected::<UriBuf>(r#""//h""#), "not URI");
        assert_eq!(
            rejected::<UriBuf>("1"),
            "invalid type: integer `1`, expected a string"
        );
    }

    #[test]
    fn strings_with_escapes() {
        let json = r#""http:\/\/user:secret@h\u002fa""#;
        let text = r#""http://user:secret@h/a""#;
        assert_eq!(again::<UriBuf>(json).as_deref(), Ok(text));
        assert_eq!(again::<UriRefBuf>(json).as_deref(), Ok(text));
        assert_eq!(rejected::<Uri<'_>>(json), "expected a borrowed string");
        assert_eq!(rejected::<UriRef<'_>>(json), "expected a borrowed string");
    }

    /// A stream lends no string, and a value of JSON hands over its own.
    #[test]
    fn streams_and_values() {
        let json = r#""http://h/a""#;
        let uri: UriBuf = from_reader(json.as_bytes()).unwrap();
        assert_eq!(uri.as_str(), "http://h/a");
        let reference: UriRefBuf = from_value(Value::from("../a")).unwrap();
        assert_eq!(reference.as_str(), "../a");
        assert!(from_value::<UriRefBuf>(Value::from("a b")).is_err());
    }

    /// The page shows the example above, which is a test.
    #[test]
    fn example_of_the_page() {
        let here = include_str!("lib.rs").lines();
        let example: String = here
            .skip_while(|line| *line != "//! ```")
            .skip(1)
            .take_while(|line| *line != "//! ```")
            .map(|line| {
                format!(
                    "{}\n",
                    line.trim_start_matches("//!")
                        .strip_prefix(' ')
                        .unwrap_or("")
                )
            })
            .collect();
        assert!(include_str!("../../README.md").contains(&example));
    }
}
