//! Reads the documents of JSON that the library answers, so that no other crate is needed.

use std::collections::BTreeMap;
use std::iter::Peekable;
use std::str::Chars;

/// A value of JSON. Numbers are places and formats, so they are whole.
#[derive(Clone, Debug, PartialEq)]
pub(crate) enum Value {
    Null,
    Bool(bool),
    Number(usize),
    String(String),
    Array(Vec<Value>),
    Object(BTreeMap<String, Value>),
}

impl Value {
    /// The value of a text; none if the text is no such JSON.
    pub(crate) fn read(text: &str) -> Option<Value> {
        let mut rest = text.trim_end().chars().peekable();
        let value = value(&mut rest)?;
        rest.next().is_none().then_some(value)
    }

    /// Takes the value of a key out of an object.
    pub(crate) fn take(&mut self, key: &str) -> Option<Value> {
        match self {
            Value::Object(members) => members.remove(key),
            _ => None,
        }
    }

    pub(crate) fn string(self) -> Option<String> {
        match self {
            Value::String(text) => Some(text),
            _ => None,
        }
    }

    pub(crate) fn number(self) -> Option<usize> {
        match self {
            Value::Number(number) => Some(number),
            _ => None,
        }
    }

    pub(crate) fn bool(self) -> Option<bool> {
        match self {
            Value::Bool(is_true) => Some(is_true),
            _ => None,
        }
    }

    /// The items of an array, each read by a function.
    pub(crate) fn list<T>(self, item: impl FnMut(Value) -> Option<T>) -> Option<Vec<T>> {
        match self {
            Value::Array(items) => items.into_iter().map(item).collect(),
            _ => None,
        }
    }

    /// A value that may be null, read by a function otherwise.
    pub(crate) fn optional<T>(self, some: impl FnOnce(Value) -> Option<T>) -> Option<Option<T>> {
        match self {
            Value::Null => Some(None),
            value => some(value).map(Some),
        }
    }

    /// The members of an object whose values are texts.
    pub(crate) fn texts(self) -> Option<BTreeMap<String, String>> {
        match self {
            Value::Object(members) => {
                members.into_iter().map(|(key, value)| Some((key, value.string()?))).collect()
            }
            _ => None,
        }
    }
}

type Rest<'a> = Peekable<Chars<'a>>;

fn value(rest: &mut Rest<'_>) -> Option<Value> {
    match rest.peek()? {
        '{' => object(rest),
        '[' => array(rest),
        '"' => string(rest).map(Value::String),
        '0'..='9' => number(rest),
        _ => word(rest),
    }
}

fn object(rest: &mut Rest<'_>) -> Option<Value> {
    let mut members = BTreeMap::new();
    rest.next();
    if rest.next_if_eq(&'}').is_some() {
        return Some(Value::Object(members));
    }
    loop {
        let key = string(rest)?;
        rest.next_if_eq(&':')?;
        members.insert(key, value(rest)?);
        match rest.next()? {
            ',' => {}
            '}' => return Some(Value::Object(members)),
            _ => return None,
        }
    }
}

fn array(rest: &mut Rest<'_>) -> Option<Value> {
    let mut items = Vec::new();
    rest.next();
    if rest.next_if_eq(&']').is_some() {
        return Some(Value::Array(items));
    }
    loop {
        items.push(value(rest)?);
        match rest.next()? {
            ',' => {}
            ']' => return Some(Value::Array(items)),
            _ => return None,
        }
    }
}

fn string(rest: &mut Rest<'_>) -> Option<String> {
    let mut text = String::new();
    rest.next_if_eq(&'"')?;
    loop {
        match rest.next()? {
            '"' => return Some(text),
            '\\' => text.push(escaped(rest)?),
            character => text.push(character),
        }
    }
}

/// The character of an escape.
fn escaped(rest: &mut Rest<'_>) -> Option<char> {
    match rest.next()? {
        'b' => Some('\u{8}'),
        'f' => Some('\u{c}'),
        'n' => Some('\n'),
        'r' => Some('\r'),
        't' => Some('\t'),
        'u' => {
            let digits: String = rest.by_ref().take(4).collect();
            char::from_u32(u32::from_str_radix(&digits, 16).ok()?)
        }
        character => Some(character),
    }
}

fn number(rest: &mut Rest<'_>) -> Option<Value> {
    let mut digits = String::new();
    while let Some(digit) = rest.next_if(char::is_ascii_digit) {
        digits.push(digit);
    }
    digits.parse().ok().map(Value::Number)
}

fn word(rest: &mut Rest<'_>) -> Option<Value> {
    let mut letters = String::new();
    while let Some(letter) = rest.next_if(char::is_ascii_lowercase) {
        letters.push(letter);
    }
    match letters.as_str() {
        "null" => Some(Value::Null),
        "true" => Some(Value::Bool(true)),
        "false" => Some(Value::Bool(false)),
        _ => None,
    }
}

#[cfg(test)]
mod tests {
    use super::Value;

    #[test]
    fn documents_are_read() {
        let mut read = Value::read(r#"{"a":[1,true,null,"b\"\\\n\u0001"],"c":{}}"#).unwrap();
        let text = Value::String("b\"\\\n\u{1}".to_owned());
        let items = vec![Value::Number(1), Value::Bool(true), Value::Null, text];
        assert_eq!(read.take("a"), Some(Value::Array(items)));
        assert_eq!(read.take("c"), Some(Value::Object(Default::default())));
        assert_eq!(read.take("a"), None);
    }

    #[test]
    fn other_texts_are_refused() {
        for text in ["", "{", "[1,", "[1 2]", "\"a", "nul", "{\"a\" 1}", "[]]", "\"\\u00g0\"", "-1"] {
            assert_eq!(Value::read(text), None, "{text}");
        }
    }
}
