//! JSON, written.

use std::fmt;

/// A JSON value.
#[derive(Clone, Debug, PartialEq)]
pub enum Json {
    /// `null`.
    Null,
    /// `true` or `false`.
    Flag(bool),
    /// A whole number.
    Number(u64),
    /// A whole number that may be below 0.
    Signed(i64),
    /// A text.
    Text(String),
    /// A list of values.
    List(Vec<Json>),
    /// Named values, in the order given.
    Object(Vec<(&'static str, Json)>),
}

impl From<bool> for Json {
    fn from(flag: bool) -> Json {
        Json::Flag(flag)
    }
}

impl From<usize> for Json {
    fn from(number: usize) -> Json {
        Json::Number(number as u64)
    }
}

impl From<u64> for Json {
    fn from(number: u64) -> Json {
        Json::Number(number)
    }
}

impl From<i64> for Json {
    fn from(number: i64) -> Json {
        Json::Signed(number)
    }
}

impl From<u8> for Json {
    fn from(number: u8) -> Json {
        Json::Number(number.into())
    }
}

impl From<u16> for Json {
    fn from(number: u16) -> Json {
        Json::Number(number.into())
    }
}

impl From<&str> for Json {
    fn from(text: &str) -> Json {
        Json::Text(text.into())
    }
}

impl From<String> for Json {
    fn from(text: String) -> Json {
        Json::Text(text)
    }
}

/// On one line, so that a row of values is a file of lines.
///
/// ```
/// use planner::json::Json;
/// let value = Json::Object(vec![("line", "4.7".into()), ("counts", Json::List(vec![6u8.into()]))]);
/// assert_eq!(value.to_string(), r#"{"line": "4.7", "counts": [6]}"#);
/// assert_eq!(Json::from("a \"b\"\n").to_string(), r#""a \"b\"\u000a""#);
/// ```
impl fmt::Display for Json {
    fn fmt(&self, f: &mut fmt::Formatter<'_>) -> fmt::Result {
        match self {
            Json::Null => write!(f, "null"),
            Json::Flag(flag) => write!(f, "{flag}"),
            Json::Number(number) => write!(f, "{number}"),
            Json::Signed(number) => write!(f, "{number}"),
            Json::Text(text) => quote(f, text),
            Json::List(values) => {
                write!(f, "[")?;
                for (place, value) in values.iter().enumerate() {
                    write!(f, "{}{value}", if place > 0 { ", " } else { "" })?;
                }
                write!(f, "]")
            }
            Json::Object(members) => object(f, members),
        }
    }
}

fn object(f: &mut fmt::Formatter<'_>, members: &[(&'static str, Json)]) -> fmt::Result {
    write!(f, "{{")?;
    for (place, (name, value)) in members.iter().enumerate() {
        write!(
            f,
            "{}\"{name}\": {value}",
            if place > 0 { ", " } else { "" }
        )?;
    }
    write!(f, "}}")
}

fn quote(f: &mut fmt::Formatter<'_>, text: &str) -> fmt::Result {
    write!(f, "\"")?;
    for character in text.chars() {
        match character {
            '"' | '\\' => write!(f, "\\{character}")?,
            '\0'..='\u{1f}' => write!(f, "\\u{:04x}", u32::from(character))?,
            _ => write!(f, "{character}")?,
        }
    }
    write!(f, "\"")
}
