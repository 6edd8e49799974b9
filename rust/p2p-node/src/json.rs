//! Objects of JSON, written in one line.

use std::fmt::{Display, Write};

/// An object of JSON that is being written. Names are written as they are, so they must have no
/// characters that JSON escapes.
#[derive(Clone, Debug)]
pub struct Object {
    text: String,
}

impl Default for Object {
    fn default() -> Object {
        Object::new()
    }
}

impl Object {
    /// An object without members.
    #[must_use]
    pub fn new() -> Object {
        Object {
            text: "{".to_owned(),
        }
    }

    fn name(&mut self, name: &str) {
        if self.text.len() > 1 {
            self.text.push(',');
        }
        self.text.push('"');
        self.text.push_str(name);
        self.text.push_str("\":");
    }

    /// Adds a member whose value is a text.
    #[must_use]
    pub fn text(mut self, name: &str, value: impl Display) -> Object {
        self.name(name);
        self.text.push('"');
        for character in value.to_string().chars() {
            match character {
                '"' | '\\' => {
                    self.text.push('\\');
                    self.text.push(character);
                }
                control if control < ' ' => {
                    // A String takes each text.
                    let _ = write!(self.text, "\\u{:04x}", u32::from(control));
                }
                other => self.text.push(other),
            }
        }
        self.text.push('"');
        self
    }

    /// Adds a member whose value is a whole number.
    #[must_use]
    pub fn number(mut self, name: &str, value: impl Into<u128>) -> Object {
        self.name(name);
        let value: u128 = value.into();
        let _ = write!(self.text, "{value}");
        self
    }

    /// Adds a member whose value is a count, or null if it isn't known.
    #[must_use]
    pub fn count(mut self, name: &str, value: Option<usize>) -> Object {
        match value {
            Some(value) => self.number(name, value as u64),
            None => {
                self.name(name);
                self.text.push_str("null");
                self
            }
        }
    }

    /// Adds a member whose value is an object.
    #[must_use]
    pub fn object(mut self, name: &str, value: Object) -> Object {
        self.name(name);
        self.text.push_str(&value.end());
        self
    }

    /// The text of the whole object.
    #[must_use]
    pub fn end(mut self) -> String {
        self.text.push('}');
        self.text
    }
}

#[cfg(test)]
mod tests {
    use super::*;

    #[test]
    fn writes_members_of_each_kind() {
        let inner = Object::new().count("none", None).count("some", Some(3));
        let text = Object::new()
            .number("at", 7_u64)
            .text("event", "say \"a\\b\"\n")
            .object("inner", inner)
            .end();
        let expected = r#"{"at":7,"event":"say \"a\\b\"\u000a","inner":{"none":null,"some":3}}"#;
        assert_eq!(text, expected);
        assert_eq!(Object::new().end(), "{}");
    }
}
