//! What is printed, as JSON.

use std::fmt;

#[derive(Clone, Debug, PartialEq, Eq)]
pub enum Json {
    Null,
    Bool(bool),
    Number(u64),
    Text(String),
    List(Vec<Json>),
    /// Its members in this order; those that are `Null` are left out.
    Object(Vec<(&'static str, Json)>),
}

/// An object of its members.
pub fn object<const N: usize>(members: [(&'static str, Json); N]) -> Json {
    Json::Object(members.into())
}

/// A list of what an iterator gives.
pub fn list(items: impl IntoIterator<Item = impl Into<Json>>) -> Json {
    Json::List(items.into_iter().map(Into::into).collect())
}

impl From<bool> for Json {
    fn from(value: bool) -> Json {
        Json::Bool(value)
    }
}

impl From<usize> for Json {
    fn from(number: usize) -> Json {
        Json::Number(number as u64)
    }
}

impl From<u32> for Json {
    fn from(number: u32) -> Json {
        Json::Number(number.into())
    }
}

impl From<&str> for Json {
    fn from(text: &str) -> Json {
        Json::Text(text.to_string())
    }
}

impl From<String> for Json {
    fn from(text: String) -> Json {
        Json::Text(text)
    }
}

impl<T: Into<Json>> From<Option<T>> for Json {
    fn from(value: Option<T>) -> Json {
        value.map_or(Json::Null, Into::into)
    }
}

impl fmt::Display for Json {
    fn fmt(&self, f: &mut fmt::Formatter) -> fmt::Result {
        self.write(f, 0)
    }
}

impl Json {
    /// Two spaces for each level; what holds nothing that has parts stands on one line.
    fn write(&self, f: &mut fmt::Formatter, level: usize) -> fmt::Result {
        match self {
            Json::Null => f.write_str("null"),
            Json::Bool(value) => write!(f, "{value}"),
            Json::Number(number) => write!(f, "{number}"),
            Json::Text(text) => write_text(f, text),
            Json::List(items) => {
                let nested = items.iter().any(Json::has_parts);
                write_parts(f, "[]", level, nested, items.iter(), |f, item| item.write(f, level + 1))
            }
            Json::Object(members) => {
                let said: Vec<_> = members.iter().filter(|(_, value)| *value != Json::Null).collect();
                let nested = said.iter().any(|(_, value)| value.has_parts());
                write_parts(f, "{}", level, nested, said.into_iter(), |f, (name, value)| {
                    write_text(f, name)?;
                    f.write_str(": ")?;
                    value.write(f, level + 1)
                })
            }
        }
    }

    fn has_parts(&self) -> bool {
        match self {
            Json::List(items) => !items.is_empty(),
            Json::Object(members) => !members.is_empty(),
            _ => false,
        }
    }
}

fn write_parts<T>(
    f: &mut fmt::Formatter,
    brackets: &str,
    level: usize,
    nested: bool,
    parts: impl Iterator<Item = T>,
    write: impl Fn(&mut fmt::Formatter, T) -> fmt::Result,
) -> fmt::Result {
    let (open, close) = brackets.split_at(1);
    f.write_str(open)?;
    for (n, part) in parts.enumerate() {
        let comma = if n == 0 { "" } else { "," };
        match nested {
            true => write!(f, "{comma}\n{:1$}", "", 2 * (level + 1))?,
            false => write!(f, "{comma}{}", if n == 0 { "" } else { " " })?,
        }
        write(f, part)?;
    }
    if nested {
        write!(f, "\n{:1$}", "", 2 * level)?;
    }
    f.write_str(close)
}

fn write_text(f: &mut fmt::Formatter, text: &str) -> fmt::Result {
    f.write_str("\"")?;
    for c in text.chars() {
        match c {
            '"' => f.write_str("\\\"")?,
            '\\' => f.write_str("\\\\")?,
            '\n' => f.write_str("\\n")?,
            c if c.is_control() => write!(f, "\\u{:04x}", u32::from(c))?,
            c => write!(f, "{c}")?,
        }
    }
    f.write_str("\"")
}

#[cfg(test)]
mod tests {
    use super::*;

    #[test]
    fn values_are_written() {
        let value = object([
            ("a", list([1u32, 2])),
            ("b", Json::Null),
            ("c", "x\"\\\n\u{1}ä".into()),
            ("d", list([object([("e", true.into())])])),
            ("f", list(Vec::<u32>::new())),
        ]);
        let text = "{\n  \"a\": [1, 2],\n  \"c\": \"x\\\"\\\\\\n\\u0001ä\",\n  \"d\": [\n    {\"e\": true}\n  ],\n  \"f\": []\n}";
        assert_eq!(value.to_string(), text);
    }
}
