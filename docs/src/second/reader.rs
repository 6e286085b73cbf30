//! A place in a text, and the small moves that the productions are made of. A move that does not fit leaves the place
//! where it is. Here too are the two productions that all others use, [3] S and [5] Name.

use crate::chars::{is_name_char, is_name_start, is_white};

pub struct Reader<'a> {
    text: &'a str,
    at: usize,
}

impl<'a> Reader<'a> {
    pub fn new(text: &'a str) -> Reader<'a> {
        Reader { text, at: 0 }
    }

    /// The offset in bytes from the text's front.
    pub fn at(&self) -> usize {
        self.at
    }

    pub fn rest(&self) -> &'a str {
        &self.text[self.at..]
    }

    pub fn is_at_end(&self) -> bool {
        self.at == self.text.len()
    }

    /// Does this stand here?
    pub fn sees(&self, literal: &str) -> bool {
        self.rest().starts_with(literal)
    }

    /// Takes this if it stands here, and tells whether it did.
    pub fn take(&mut self, literal: &str) -> bool {
        let here = self.sees(literal);
        if here {
            self.at += literal.len();
        }
        here
    }

    /// As `take`, for productions that want this here.
    pub fn want(&mut self, literal: &str) -> Option<()> {
        if self.take(literal) {
            Some(())
        } else {
            None
        }
    }

    /// Takes one character, if there is one.
    pub fn one(&mut self) -> Option<char> {
        let c = self.rest().chars().next()?;
        self.at += c.len_utf8();
        Some(c)
    }

    /// Takes the longest run of such characters; it may be empty.
    pub fn run(&mut self, class: impl Fn(char) -> bool) -> &'a str {
        let rest = self.rest();
        let length = rest.find(|c: char| !class(c)).unwrap_or(rest.len());
        self.at += length;
        &rest[..length]
    }

    /// Takes everything through the first place where this stands; nothing if it stands nowhere.
    pub fn through(&mut self, literal: &str) -> Option<()> {
        let length = self.rest().find(literal)?;
        self.at += length + literal.len();
        Some(())
    }

    /// `production?`: what it finds, or nothing if it does not fit; then the place is what it was.
    pub fn optional<T>(&mut self, production: fn(&mut Reader<'a>) -> Option<T>) -> Option<T> {
        let before = self.at;
        let found = production(self);
        if found.is_none() {
            self.at = before;
        }
        found
    }

    /// [3] S ::= (#x20 | #x9 | #xD | #xA)+
    pub fn white_space(&mut self) -> Option<()> {
        if self.run(is_white).is_empty() {
            None
        } else {
            Some(())
        }
    }

    /// [5] Name ::= NameStartChar (NameChar)*
    pub fn name(&mut self) -> Option<&'a str> {
        if self.rest().starts_with(is_name_start) {
            Some(self.run(is_name_char))
        } else {
            None
        }
    }
}
