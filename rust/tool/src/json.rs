//! JSON documents.

/// A JSON value.
pub enum Json {
    /// true or false.
    Bool(bool),
    /// A whole number.
    Number(u64),
    /// A string.
    Text(String),
    /// An array.
    List(Vec<Json>),
    /// An object, its members in this order.
    Object(Vec<(&'static str, Json)>),
}

impl Json {
    /// A number of any size that fits.
    pub fn number(number: impl Into<u64>) -> Json {
        Json::Number(number.into())
    }

    /// A string.
    pub fn text(text: impl Into<String>) -> Json {
        Json::Text(text.into())
    }

    /// The document, one line for each member and each element.
    pub fn document(&self) -> String {
        let mut text = String::new();
        self.put(&mut text, 0);
        text.push('\n');
        text
    }

    fn put(&self, text: &mut String, depth: usize) {
        match self {
            Json::Bool(value) => text.push_str(&value.to_string()),
            Json::Number(number) => text.push_str(&number.to_string()),
            Json::Text(string) => put_text(text, string),
            Json::List(values) => put_lines(text, depth, "[]", values, |text, value| value.put(text, depth + 1)),
            Json::Object(members) => put_lines(text, depth, "{}", members, |text, (name, value)| {
                put_text(text, name);
                text.push_str(": ");
                value.put(text, depth + 1);
            }),
        }
    }
}

fn put_lines<T>(text: &mut String, depth: usize, brackets: &str, items: &[T], put: impl Fn(&mut String, &T)) {
    let (open, close) = brackets.split_at(1);
    text.push_str(open);
    for (place, item) in items.iter().enumerate() {
        text.push_str(if place == 0 { "\n" } else { ",\n" });
        text.push_str(&"  ".repeat(depth + 1));
        put(text, item);
    }
    if !items.is_empty() {
        text.push('\n');
        text.push_str(&"  ".repeat(depth));
    }
    text.push_str(close);
}

fn put_text(text: &mut String, string: &str) {
    text.push('"');
    for character in string.chars() {
        match character {
            '"' | '\\' => text.extend(['\\', character]),
            '\0'..='\x1F' => text.push_str(&format!("\\u{:04x}", u32::from(character))),
            _ => text.push(character),
        }
    }
    text.push('"');
}

#[cfg(test)]
mod tests {
    use super::*;

    #[test]
    fn documents() {
        let value = Json::Object(vec![
            ("a", Json::List(vec![Json::number(1_u8), Json::Bool(true)])),
            ("b", Json::List(vec![])),
            ("c", Json::text("q\"\\\n\x1Fé")),
        ]);
        let wanted = "{\n  \"a\": [\n    1,\n    true\n  ],\n  \"b\": [],\n  \"c\": \"q\\\"\\\\\\u000a\\u001fé\"\n}\n";
        assert_eq!(value.document(), wanted);
    }
}
