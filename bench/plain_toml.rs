//! The part of TOML that plain.rs knows: integers, strings of letters, arrays, inline tables, `[[station]]`.

use std::collections::HashMap;

/// A value of the TOML that this program knows.
pub enum Value {
    Number(u64),
    Text(String),
    List(Vec<Value>),
    Table(HashMap<String, Value>),
}

impl Value {
    pub fn number(&self) -> u64 {
        match self {
            Value::Number(number) => *number,
            _ => panic!("a number was expected"),
        }
    }

    pub fn text(&self) -> &str {
        match self {
            Value::Text(text) => text,
            _ => panic!("a string was expected"),
        }
    }

    pub fn list(&self) -> &[Value] {
        match self {
            Value::List(values) => values,
            _ => panic!("an array was expected"),
        }
    }

    pub fn table(&self) -> &HashMap<String, Value> {
        match self {
            Value::Table(table) => table,
            _ => panic!("a table was expected"),
        }
    }
}

/// Reads TOML from its bytes, from left to right.
pub struct Reader<'a> {
    pub rest: &'a [u8],
}

impl Reader<'_> {
    /// Skips blanks, line ends and comments, and gives the next byte, 0 at the end.
    fn next(&mut self) -> u8 {
        loop {
            match self.rest.first() {
                Some(b'#') => {
                    let end = self.rest.iter().position(|&byte| byte == b'\n').unwrap_or(self.rest.len());
                    self.rest = &self.rest[end..];
                }
                Some(b' ' | b'\t' | b'\r' | b'\n') => self.rest = &self.rest[1..],
                found => return found.copied().unwrap_or(0),
            }
        }
    }

    /// Takes the text if it is next.
    pub fn takes(&mut self, text: &str) -> bool {
        self.next();
        let found = self.rest.starts_with(text.as_bytes());
        if found {
            self.rest = &self.rest[text.len()..];
        }
        found
    }

    fn word(&mut self) -> String {
        self.next();
        let is_word = |byte: &u8| byte.is_ascii_alphanumeric() || *byte == b'_';
        let end = self.rest.iter().position(|byte| !is_word(byte)).unwrap_or(self.rest.len());
        let (word, rest) = self.rest.split_at(end);
        self.rest = rest;
        String::from_utf8(word.to_vec()).expect("words are ASCII")
    }

    fn pair(&mut self, table: &mut HashMap<String, Value>) {
        let name = self.word();
        assert!(self.takes("="), "no value after the key '{name}'");
        let value = self.value();
        table.insert(name, value);
    }

    fn value(&mut self) -> Value {
        if self.takes("\"") {
            let text = self.word();
            assert!(self.takes("\""), "the string '{text}' doesn't end");
            return Value::Text(text);
        }
        if self.takes("[") {
            let mut values = Vec::new();
            while !self.takes("]") {
                values.push(self.value());
                self.takes(",");
            }
            return Value::List(values);
        }
        if self.takes("{") {
            let mut table = HashMap::new();
            while !self.takes("}") {
                self.pair(&mut table);
                self.takes(",");
            }
            return Value::Table(table);
        }
        Value::Number(self.word().parse().expect("a number"))
    }

    /// The keys up to the next `[[station]]` or the end.
    pub fn section(&mut self) -> HashMap<String, Value> {
        let mut table = HashMap::new();
        while !matches!(self.next(), 0 | b'[') {
            self.pair(&mut table);
        }
        table
    }
}
