//! One line of JSON: an object whose values are numbers, strings and lists of numbers, in the order in which they are added.

pub struct Object(String);

impl Object {
    pub fn new() -> Object {
        Object(String::new())
    }

    pub fn number(&mut self, key: &str, value: u64) {
        self.member(key, &value.to_string());
    }

    pub fn string(&mut self, key: &str, value: &str) {
        self.member(key, &quoted(value));
    }

    pub fn numbers(&mut self, key: &str, values: &[u64]) {
        let values: Vec<String> = values.iter().map(u64::to_string).collect();
        self.member(key, &format!("[{}]", values.join(",")));
    }

    fn member(&mut self, key: &str, value: &str) {
        if !self.0.is_empty() {
            self.0.push(',');
        }
        self.0 += &format!("{}:{value}", quoted(key));
    }

    /// The object as one line, with its line feed.
    pub fn line(self) -> String {
        format!("{{{}}}\n", self.0)
    }
}

/// A string as JSON has it: quotes, backslashes and control characters are escaped, everything else stands as it is.
fn quoted(text: &str) -> String {
    let mut quoted = String::from("\"");
    for c in text.chars() {
        match c {
            '"' | '\\' => quoted.extend(['\\', c]),
            '\0'..='\u{1F}' => quoted += &format!("\\u{:04x}", c as u32),
            _ => quoted.push(c),
        }
    }
    quoted + "\""
}

#[cfg(test)]
mod tests {
    use super::*;

    #[test]
    fn strings_are_escaped() {
        assert_eq!(quoted(r#"<a k="1">"#), r#""<a k=\"1\">""#);
        assert_eq!(quoted("\\xFF\n\u{1F}é\u{7F}"), "\"\\\\xFF\\u000a\\u001fé\u{7F}\"");
    }

    #[test]
    fn members_keep_their_order() {
        let mut object = Object::new();
        object.number("number", 7);
        object.string("meaning", "not well-formed");
        assert_eq!(object.line(), "{\"number\":7,\"meaning\":\"not well-formed\"}\n");
        assert_eq!(Object::new().line(), "{}\n");
    }
}
