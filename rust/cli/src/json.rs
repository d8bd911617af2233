//! JSON, as far as it is written.

use std::fmt;

/// A value.
#[derive(Clone, PartialEq, Eq, Debug)]
pub enum Json {
    Null,
    Number(u64),
    Text(String),
    List(Vec<Json>),
    Object(Vec<(String, Json)>),
}

impl Json {
    pub fn text(text: impl fmt::Display) -> Json {
        Json::Text(text.to_string())
    }

    /// A number, or null.
    pub fn number(number: Option<usize>) -> Json {
        Json::or_null(number.map(|number| Json::Number(number as u64)))
    }

    /// The value, or null.
    pub fn or_null(value: Option<Json>) -> Json {
        value.unwrap_or(Json::Null)
    }

    pub fn object<const N: usize>(members: [(&str, Json); N]) -> Json {
        Json::Object(
            members
                .map(|(name, value)| (name.to_string(), value))
                .into(),
        )
    }
}

impl fmt::Display for Json {
    fn fmt(&self, f: &mut fmt::Formatter) -> fmt::Result {
        match self {
            Json::Null => f.write_str("null"),
            Json::Number(number) => write!(f, "{number}"),
            Json::Text(text) => write_text(f, text),
            Json::List(items) => {
                f.write_str("[")?;
                for (index, item) in items.iter().enumerate() {
                    write!(f, "{}{item}", comma(index))?;
                }
                f.write_str("]")
            }
            Json::Object(members) => {
                f.write_str("{")?;
                for (index, (name, value)) in members.iter().enumerate() {
                    f.write_str(comma(index))?;
                    write_text(f, name)?;
                    write!(f, ": {value}")?;
                }
                f.write_str("}")
            }
        }
    }
}

/// What stands before an item of a list.
pub fn comma(index: usize) -> &'static str {
    match index {
        0 => "",
        _ => ", ",
    }
}

fn write_text(f: &mut fmt::Formatter, text: &str) -> fmt::Result {
    f.write_str("\"")?;
    for c in text.chars() {
        match c {
            '"' | '\\' => write!(f, "\\{c}")?,
            c if c.is_control() => write!(f, "\\u{:04x}", u32::from(c))?,
            c => write!(f, "{c}")?,
        }
    }
    f.write_str("\"")
}

#[cfg(test)]
mod tests {
    use super::Json;

    #[test]
    fn values() {
        let value = Json::object([
            ("a \"b\"\n\t", Json::List(vec![Json::Number(1), Json::Null])),
            ("c", Json::object([])),
            ("d", Json::text("\\")),
        ]);
        let text = r#"{"a \"b\"\u000a\u0009": [1, null], "c": {}, "d": "\\"}"#;
        assert_eq!(value.to_string(), text);
    }
}
