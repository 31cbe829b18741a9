//! That part of TOML which is read: comments, whole decimal numbers, strings in double quotes without escapes, arrays,
//! inline tables and `[[name]]`.

use std::ops::RangeInclusive;

pub enum Value {
    Number(u64),
    Text(String),
    List(Vec<Value>),
    Table(Table),
}

impl Value {
    fn number(&self, key: &str, range: RangeInclusive<u64>) -> u64 {
        match self {
            Value::Number(number) if range.contains(number) => *number,
            Value::Number(number) => panic!("{key} is {number}, and not {range:?}"),
            _ => panic!("{key} is no number"),
        }
    }
}

#[derive(Default)]
pub struct Table(Vec<(String, Value)>);

impl Table {
    pub fn find(&self, key: &str) -> Option<&Value> {
        self.0.iter().find(|entry| entry.0 == key).map(|entry| &entry.1)
    }

    fn list_at(&mut self, place: usize) -> &mut Vec<Value> {
        let (key, value) = &mut self.0[place];
        match value {
            Value::List(list) => list,
            _ => panic!("{key} is no array"),
        }
    }

    pub fn keys(&self) -> impl Iterator<Item = &str> {
        self.0.iter().map(|entry| entry.0.as_str())
    }

    fn put(&mut self, (key, value): (String, Value)) {
        assert!(self.find(&key).is_none(), "{key} stands twice");
        self.0.push((key, value));
    }

    /// The number of a key that has to stand there, in its range.
    pub fn number(&self, key: &str, range: RangeInclusive<u64>) -> u64 {
        let value = self.find(key).unwrap_or_else(|| panic!("{key} is missing"));
        value.number(key, range)
    }

    pub fn number_or(&self, key: &str, range: RangeInclusive<u64>, default: u64) -> u64 {
        self.find(key).map_or(default, |value| value.number(key, range))
    }

    pub fn text(&self, key: &str) -> Option<&str> {
        self.find(key).map(|value| match value {
            Value::Text(text) => text.as_str(),
            _ => panic!("{key} is no text"),
        })
    }

    fn list(&self, key: &str) -> &[Value] {
        match self.find(key) {
            None => &[],
            Some(Value::List(list)) => list,
            Some(_) => panic!("{key} is no array"),
        }
    }

    /// The numbers of an array, each in a range; none where the key does not stand there.
    pub fn numbers(&self, key: &str, range: RangeInclusive<u64>) -> Vec<u64> {
        self.list(key).iter().map(|value| value.number(key, range.clone())).collect()
    }

    pub fn tables<'a>(&'a self, key: &'a str) -> impl Iterator<Item = &'a Table> {
        self.list(key).iter().map(move |value| match value {
            Value::Table(table) => table,
            _ => panic!("{key} has an element that is no table"),
        })
    }
}

pub struct Reader<'a> {
    left: &'a [u8],
}

impl<'a> Reader<'a> {
    pub fn new(text: &'a [u8]) -> Reader<'a> {
        Reader { left: text }
    }

    pub fn document(mut self) -> Table {
        let mut top = Table::default();
        let mut inside = None;
        loop {
            self.skip();
            if self.left.is_empty() {
                return top;
            }
            if self.take(b"[[") {
                let key = self.key().to_string();
                assert!(self.take(b"]]"), "[[{key} has no end");
                let place = top.0.iter().position(|entry| entry.0 == key).unwrap_or(top.0.len());
                if place == top.0.len() {
                    top.0.push((key, Value::List(Vec::new())));
                }
                inside = Some(place);
                top.list_at(place).push(Value::Table(Table::default()));
                continue;
            }
            let entry = self.entry();
            match inside.map(|place| top.list_at(place).last_mut()) {
                None => top.put(entry),
                Some(Some(Value::Table(element))) => element.put(entry),
                Some(_) => panic!("{} stands in no table", entry.0),
            }
        }
    }

    /// Passes over blanks, line ends and comments.
    fn skip(&mut self) {
        loop {
            self.left = self.left.trim_ascii_start();
            if self.left.first() != Some(&b'#') {
                return;
            }
            let line = self.left.iter().position(|&it| it == b'\n').unwrap_or(self.left.len());
            self.left = &self.left[line..];
        }
    }

    fn take(&mut self, word: &[u8]) -> bool {
        self.skip();
        let rest = self.left.strip_prefix(word);
        self.left = rest.unwrap_or(self.left);
        rest.is_some()
    }

    /// What is in front, as long as it is so.
    fn front(&mut self, so: impl Fn(u8) -> bool) -> &'a str {
        let length = self.left.iter().position(|&it| !so(it)).unwrap_or(self.left.len());
        let (front, rest) = self.left.split_at(length);
        self.left = rest;
        std::str::from_utf8(front).expect("the scenario is UTF-8")
    }

    fn key(&mut self) -> &'a str {
        self.skip();
        self.front(|it| it.is_ascii_alphanumeric() || it == b'_' || it == b'-')
    }

    fn entry(&mut self) -> (String, Value) {
        let key = self.key().to_string();
        assert!(!key.is_empty() && self.take(b"="), "no key with a value: {key}");
        (key, self.value())
    }

    fn value(&mut self) -> Value {
        if self.take(b"\"") {
            let text = self.front(|it| it != b'"').to_string();
            assert!(self.take(b"\""), "a text without an end");
            return Value::Text(text);
        }
        if self.take(b"[") {
            let mut list = Vec::new();
            while !self.take(b"]") {
                list.push(self.value());
                self.take(b",");
            }
            return Value::List(list);
        }
        if self.take(b"{") {
            let mut table = Table::default();
            while !self.take(b"}") {
                table.put(self.entry());
                self.take(b",");
            }
            return Value::Table(table);
        }
        Value::Number(self.front(|it| it.is_ascii_digit()).parse().expect("a whole number"))
    }
}
