//! Text in XML, HTML and JSON.

use crate::escape;

/// Text as it may stand in XML or HTML, in quotes too; control characters may not.
pub fn escaped(name: &str) -> String {
    let mut text = String::new();
    for sign in name.chars() {
        match sign {
            '&' => text.push_str("&amp;"),
            '<' => text.push_str("&lt;"),
            '>' => text.push_str("&gt;"),
            '"' => text.push_str("&quot;"),
            '\'' => text.push_str("&#39;"),
            sign if sign.is_control() => text.push('\u{fffd}'),
            '\u{fffe}' | '\u{ffff}' => text.push('\u{fffd}'),
            sign => text.push(sign),
        }
    }
    text
}

/// Text as a string of JSON. What is not to be seen is written by its number.
pub fn json_string(name: &str) -> String {
    let mut text = String::from('"');
    for sign in name.chars() {
        match sign {
            '"' => text.push_str("\\\""),
            '\\' => text.push_str("\\\\"),
            '\n' => text.push_str("\\n"),
            sign if escape::is_hidden(sign) => {
                for unit in sign.encode_utf16(&mut [0; 2]) {
                    text += &format!("\\u{unit:04x}");
                }
            }
            sign => text.push(sign),
        }
    }
    text.push('"');
    text
}

#[cfg(test)]
mod tests {
    use super::*;

    #[test]
    fn names_are_escaped() {
        assert_eq!(escaped("a<b>&\n\u{1}"), "a&lt;b&gt;&amp;\u{fffd}\u{fffd}");
        assert_eq!(escaped("\"'"), "&quot;&#39;");
    }

    #[test]
    fn strings_of_json() {
        let name = "ä \"b\" \\ \n\t\u{1b}\u{7f}\u{85}\u{202e}\u{e0041}漢😀";
        let text = r#""ä \"b\" \\ \n\u0009\u001b\u007f\u0085\u202e\udb40\udc41漢😀""#;
        assert_eq!(json_string(name), text);
    }
}
