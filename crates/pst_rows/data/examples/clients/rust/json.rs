//! The values of a model, and their JSON.
use std::{collections::BTreeMap, fmt, iter::Peekable, str::Chars};

/// A value, whose JSON is `{:?}`. A tuple is a list, and a key of a map is a text.
#[derive(Clone, PartialEq)]
pub enum Json {
    Int(i64),
    Bool(bool),
    Text(String),
    List(Vec<Json>),
    Map(BTreeMap<String, Json>),
}

impl fmt::Debug for Json {
    fn fmt(&self, out: &mut fmt::Formatter) -> fmt::Result {
        match self {
            Json::Int(number) => number.fmt(out),
            Json::Bool(bool) => bool.fmt(out),
            Json::Text(text) => text.fmt(out),
            Json::List(items) => items.fmt(out),
            Json::Map(entries) => entries.fmt(out),
        }
    }
}

/// Reads a value as `pst` writes it: on one line, without blanks.
pub fn read(json: &mut Peekable<Chars>) -> Option<Json> {
    match json.next()? {
        '"' => read_text(json).map(Json::Text),
        '[' => read_items(json, read).map(Json::List),
        '{' => read_items(json, read_entry).map(|entries| Json::Map(entries.into_iter().collect())),
        first => {
            let mut word = String::from(first);
            word.extend(std::iter::from_fn(|| json.next_if(char::is_ascii_alphanumeric)));
            word.parse().map(Json::Bool).or_else(|_| word.parse().map(Json::Int)).ok()
        }
    }
}

fn read_text(json: &mut Peekable<Chars>) -> Option<String> {
    let mut text = String::new();
    while let Some(c) = json.next_if(|c| *c != '"') {
        text.push(if c == '\\' { json.next()? } else { c });
    }
    json.next().map(|_| text)
}

fn read_entry(json: &mut Peekable<Chars>) -> Option<(String, Json)> {
    json.next_if_eq(&'"').and_then(|_| read_text(json)).zip(json.next().and_then(|_| read(json)))
}

/// Reads up to the closing bracket.
pub fn read_items<T>(json: &mut Peekable<Chars>, read: fn(&mut Peekable<Chars>) -> Option<T>) -> Option<Vec<T>> {
    let mut items = vec![];
    while json.next_if(|c| "]}".contains(*c)).is_none() {
        items.push(read(json)?);
        json.next_if_eq(&',');
    }
    Some(items)
}
