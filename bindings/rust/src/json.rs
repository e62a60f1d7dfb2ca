//! Values of JSON, as far as documents and their answers have them.

use std::fmt::{self, Write};

/// A value of JSON. A number is its text.
#[derive(Clone, Debug, PartialEq)]
pub(crate) enum Json {
    Null,
    Bool(bool),
    Number(String),
    Text(String),
    List(Vec<Json>),
    Object(Vec<(String, Json)>),
}

impl Json {
    pub(crate) fn text(text: impl Into<String>) -> Json {
        Json::Text(text.into())
    }

    pub(crate) fn object<const N: usize>(members: [(&str, Json); N]) -> Json {
        Json::Object(
            members
                .into_iter()
                .map(|(key, value)| (key.to_owned(), value))
                .collect(),
        )
    }

    /// The value of an object under a key.
    pub(crate) fn get(&self, key: &str) -> Option<&Json> {
        match self {
            Json::Object(members) => members
                .iter()
                .find(|(name, _)| name == key)
                .map(|(_, value)| value),
            _ => None,
        }
    }

    pub(crate) fn as_str(&self) -> Option<&str> {
        match self {
            Json::Text(text) => Some(text),
            _ => None,
        }
    }

    pub(crate) fn as_list(&self) -> Option<&[Json]> {
        match self {
            Json::List(items) => Some(items),
            _ => None,
        }
    }

    /// Whether it is a node of this name.
    pub(crate) fn is_node(&self, name: &str) -> bool {
        self.get("type").and_then(Json::as_str) == Some(name)
    }

    /// How deep lists and objects lie in each other.
    pub(crate) fn depth(&self) -> usize {
        match self {
            Json::List(items) => 1 + items.iter().map(Json::depth).max().unwrap_or(0),
            Json::Object(members) => {
                1 + members
                    .iter()
                    .map(|(_, value)| value.depth())
                    .max()
                    .unwrap_or(0)
            }
            _ => 0,
        }
    }

    /// Calls `visit` for this value and all values in it, the outer ones first, in the order of the text.
    pub(crate) fn walk<'a>(&'a self, visit: &mut impl FnMut(&'a Json)) {
        visit(self);
        match self {
            Json::List(items) => items.iter().for_each(|item| item.walk(visit)),
            Json::Object(members) => members.iter().for_each(|(_, value)| value.walk(visit)),
            _ => {}
        }
    }

    /// The same, of values that may be changed.
    pub(crate) fn walk_mut(&mut self, visit: &mut impl FnMut(&mut Json)) {
        visit(self);
        match self {
            Json::List(items) => items.iter_mut().for_each(|item| item.walk_mut(visit)),
            Json::Object(members) => members
                .iter_mut()
                .for_each(|(_, value)| value.walk_mut(visit)),
            _ => {}
        }
    }

    /// Puts a value under a key of an object, in the place of the one that stands there.
    pub(crate) fn put(&mut self, key: &str, value: Json) {
        let Json::Object(members) = self else { return };
        match members.iter_mut().find(|(name, _)| name == key) {
            Some((_, place)) => *place = value,
            None => members.push((key.to_owned(), value)),
        }
    }

    /// Reads a text, which has to be JSON; none where it is not.
    pub(crate) fn read(text: &str) -> Option<Json> {
        let mut reader = Reader { text, at: 0 };
        let value = reader.value()?;
        reader.skip_space();
        (reader.at == text.len()).then_some(value)
    }
}

/// Writes the text, compact.
impl fmt::Display for Json {
    fn fmt(&self, f: &mut fmt::Formatter<'_>) -> fmt::Result {
        match self {
            Json::Null => f.write_str("null"),
            Json::Bool(truth) => write!(f, "{truth}"),
            Json::Number(text) => f.write_str(text),
            Json::Text(text) => write_quoted(f, text),
            Json::List(items) => {
                f.write_char('[')?;
                for (at, item) in items.iter().enumerate() {
                    write!(f, "{}{item}", comma(at))?;
                }
                f.write_char(']')
            }
            Json::Object(members) => {
                f.write_char('{')?;
                for (at, (key, value)) in members.iter().enumerate() {
                    f.write_str(comma(at))?;
                    write_quoted(f, key)?;
                    write!(f, ":{value}")?;
                }
                f.write_char('}')
            }
        }
    }
}

// What stands in front of an item.
fn comma(at: usize) -> &'static str {
    if at == 0 {
        ""
    } else {
        ","
    }
}

fn write_quoted(f: &mut fmt::Formatter<'_>, text: &str) -> fmt::Result {
    f.write_char('"')?;
    for letter in text.chars() {
        match letter {
            '"' => f.write_str("\\\"")?,
            '\\' => f.write_str("\\\\")?,
            '\0'..='\x1f' => write!(f, "\\u{:04x}", u32::from(letter))?,
            _ => f.write_char(letter)?,
        }
    }
    f.write_char('"')
}

/// A text, and how far it was read.
struct Reader<'a> {
    text: &'a str,
    at: usize,
}

impl<'a> Reader<'a> {
    fn value(&mut self) -> Option<Json> {
        self.skip_space();
        match self.peek()? {
            b'{' => self.object(),
            b'[' => self.list(),
            b'"' => self.quoted().map(Json::Text),
            b't' => self.word("true", Json::Bool(true)),
            b'f' => self.word("false", Json::Bool(false)),
            b'n' => self.word("null", Json::Null),
            _ => self.number(),
        }
    }

    fn object(&mut self) -> Option<Json> {
        let mut members = Vec::new();
        self.at += 1;
        if self.takes(b'}') {
            return Some(Json::Object(members));
        }
        loop {
            self.skip_space();
            let key = self.quoted()?;
            if !self.takes(b':') {
                return None;
            }
            members.push((key, self.value()?));
            if self.takes(b'}') {
                return Some(Json::Object(members));
            }
            if !self.takes(b',') {
                return None;
            }
        }
    }

    fn list(&mut self) -> Option<Json> {
        let mut items = Vec::new();
        self.at += 1;
        if self.takes(b']') {
            return Some(Json::List(items));
        }
        loop {
            items.push(self.value()?);
            if self.takes(b']') {
                return Some(Json::List(items));
            }
            if !self.takes(b',') {
                return None;
            }
        }
    }

    // A text in quotes.
    fn quoted(&mut self) -> Option<String> {
        if self.peek()? != b'"' {
            return None;
        }
        self.at += 1;
        let mut text = String::new();
        loop {
            let rest = self.rest();
            let plain = rest.find(['"', '\\'])?;
            text.push_str(&rest[..plain]);
            self.at += plain + 1;
            if rest.as_bytes()[plain] == b'"' {
                return Some(text);
            }
            text.push(self.escaped()?);
        }
    }

    // What an escape stands for, behind its `\`.
    fn escaped(&mut self) -> Option<char> {
        let letter = self.peek()?;
        self.at += 1;
        Some(match letter {
            b'b' => '\u{8}',
            b'f' => '\u{c}',
            b'n' => '\n',
            b'r' => '\r',
            b't' => '\t',
            b'u' => return self.unit_escaped(),
            _ => char::from(letter),
        })
    }

    fn unit_escaped(&mut self) -> Option<char> {
        let first = self.unit()?;
        if !(0xd800..0xdc00).contains(&first) {
            return char::from_u32(first);
        }
        if !self.rest().starts_with("\\u") {
            return None;
        }
        self.at += 2;
        let second = self.unit()?.checked_sub(0xdc00)?;
        char::from_u32(0x10000 + ((first - 0xd800) << 10) + second)
    }

    fn unit(&mut self) -> Option<u32> {
        let digits = self.rest().get(..4)?;
        self.at += 4;
        u32::from_str_radix(digits, 16).ok()
    }

    fn number(&mut self) -> Option<Json> {
        let rest = self.rest();
        let is_part = |letter: char| letter.is_ascii_digit() || "+-.eE".contains(letter);
        let length = rest.find(|letter| !is_part(letter)).unwrap_or(rest.len());
        self.at += length;
        (length > 0).then(|| Json::Number(rest[..length].to_owned()))
    }

    fn word(&mut self, word: &str, value: Json) -> Option<Json> {
        self.rest().starts_with(word).then(|| {
            self.at += word.len();
            value
        })
    }

    // Whether this byte comes next, behind space; it is taken then.
    fn takes(&mut self, byte: u8) -> bool {
        self.skip_space();
        let is_next = self.peek() == Some(byte);
        self.at += usize::from(is_next);
        is_next
    }

    fn skip_space(&mut self) {
        let rest = self.rest();
        self.at += rest.len() - rest.trim_start_matches([' ', '\t', '\n', '\r']).len();
    }

    fn peek(&self) -> Option<u8> {
        self.text.as_bytes().get(self.at).copied()
    }

    fn rest(&self) -> &'a str {
        &self.text[self.at..]
    }
}

#[cfg(test)]
mod tests {
    use super::Json;

    #[test]
    fn what_is_read_is_written_again() {
        for text in [
            r#"{"a":[1,-2.5e3,true,false,null],"b":{},"c":[]}"#,
            r#""é \" \\ \u0001""#,
            r#"[[[[]]]]"#,
        ] {
            assert_eq!(
                Json::read(text).map(|value| value.to_string()).as_deref(),
                Some(text)
            );
        }
    }

    #[test]
    fn escapes_stand_for_letters() {
        let read = Json::read(r#" [ "\n\t\/\u0041\ud83d\ude00" , 1 ] "#);
        assert_eq!(
            read,
            Some(Json::List(vec![
                Json::text("\n\t/A\u{1f600}"),
                Json::Number("1".to_owned())
            ]))
        );
    }

    #[test]
    fn what_is_no_json_is_refused() {
        for text in [
            "",
            "[1",
            "{\"a\"}",
            "\"a",
            "[1,]",
            "1 2",
            r#""\ud83d""#,
            r#""\u00""#,
        ] {
            assert_eq!(Json::read(text), None, "{text}");
        }
    }

    #[test]
    fn depth_counts_lists_and_objects() {
        assert_eq!(
            Json::read(r#"{"a":[1,{"b":2}]}"#).map(|value| value.depth()),
            Some(3)
        );
    }
}
