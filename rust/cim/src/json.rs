//! Lines as JSON: one object each, its members in a fixed order.

use std::fmt::{self, Write};

/// The largest number that every reader of JSON keeps as it is; a larger one is given as text.
const EXACT: u64 = 1 << 53;

/// An object that is being made. Its first member, `what`, says what the line is about.
pub struct Object(String);

impl Object {
    pub fn new(what: &str) -> Object {
        Object("{".into()).text("what", what)
    }

    pub fn number(self, name: &str, number: impl Into<u64>) -> Object {
        let number = number.into();
        match number {
            0..=EXACT => self.member(name, format_args!("{number}")),
            _ => self.member(name, format_args!("\"{number}\"")),
        }
    }

    /// A number that may be below 0.
    pub fn signed(self, name: &str, number: i32) -> Object {
        self.member(name, format_args!("{number}"))
    }

    pub fn truth(self, name: &str, truth: bool) -> Object {
        self.member(name, format_args!("{truth}"))
    }

    pub fn text(self, name: &str, text: &str) -> Object {
        self.member(name, format_args!("{}", Quoted(text)))
    }

    /// A member that is left out where there is none.
    pub fn perhaps(self, name: &str, text: Option<&str>) -> Object {
        match text {
            Some(text) => self.text(name, text),
            None => self,
        }
    }

    pub fn object(self, name: &str, object: Object) -> Object {
        self.member(name, format_args!("{object}"))
    }

    fn member(mut self, name: &str, value: fmt::Arguments) -> Object {
        if self.0.len() > 1 {
            self.0.push(',');
        }
        // Writing to a string does not fail.
        let _ = write!(self.0, "{}:{value}", Quoted(name));
        self
    }
}

impl fmt::Display for Object {
    fn fmt(&self, f: &mut fmt::Formatter<'_>) -> fmt::Result {
        write!(f, "{}}}", self.0)
    }
}

/// A text in quotes.
struct Quoted<'a>(&'a str);

impl fmt::Display for Quoted<'_> {
    fn fmt(&self, f: &mut fmt::Formatter<'_>) -> fmt::Result {
        f.write_char('"')?;
        for letter in self.0.chars() {
            match letter {
                '"' | '\\' => write!(f, "\\{letter}")?,
                _ if !crate::shown::is_plain(letter) => write!(f, "\\u{:04x}", u32::from(letter))?,
                _ => f.write_char(letter)?,
            }
        }
        f.write_char('"')
    }
}

#[cfg(test)]
mod tests {
    use super::*;

    #[test]
    fn members_stand_in_their_order() {
        let object = Object::new("device")
            .number("id", 3u32)
            .signed("head", -4)
            .truth("same", false)
            .text("name", "a\"\\\n\u{1b}ü")
            .perhaps("none", None)
            .object("in", Object::new("x"));
        let expected = r#"{"what":"device","id":3,"head":-4,"same":false,"name":"a\"\\\u000a\u001bü","in":{"what":"x"}}"#;
        assert_eq!(object.to_string(), expected);
    }

    #[test]
    fn numbers_that_readers_would_round_are_texts() {
        let told = |number: u64| Object::new("x").number("n", number).to_string();
        assert_eq!(told(1 << 53), r#"{"what":"x","n":9007199254740992}"#);
        assert_eq!(told((1 << 53) + 1), r#"{"what":"x","n":"9007199254740993"}"#);
    }
}
