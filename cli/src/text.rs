//! Bytes and numbers as text that a terminal, a plan file, a JSON reader or a browser takes; and where bytes are no text.

use std::fmt::Write;
use std::os::unix::ffi::OsStrExt;
use std::path::Path;

/// Bytes as one line of text: what is printable as it is, a backslash doubled, every other byte as `\xNN`. A worn disk
/// must not be able to write control characters to a terminal, nor anything that hides or turns around what stands beside it.
pub fn shown(bytes: &[u8]) -> String {
    let mut text = String::new();
    for chunk in bytes.utf8_chunks() {
        for character in chunk.valid().chars() {
            if character == '\\' {
                text.push_str("\\\\");
            } else if is_unseen(character) {
                let mut buffer = [0; 4];
                push_hex_escapes(&mut text, character.encode_utf8(&mut buffer).as_bytes());
            } else {
                text.push(character);
            }
        }
        push_hex_escapes(&mut text, chunk.invalid());
    }
    text
}

/// Control characters, line ends, and characters that are not seen but change how others are: those that turn the direction
/// of writing, those without a width, other format characters and fillers. The list is Unicode's, of its categories Cc, Cf, Zl
/// and Zp and of its property Default_Ignorable_Code_Point.
pub fn is_unseen(character: char) -> bool {
    character.is_control()
        || matches!(character,
            '\u{ad}' | '\u{34f}' | '\u{600}'..='\u{605}' | '\u{61c}' | '\u{6dd}' | '\u{70f}'
            | '\u{890}'..='\u{891}' | '\u{8e2}' | '\u{115f}'..='\u{1160}' | '\u{17b4}'..='\u{17b5}'
            | '\u{180b}'..='\u{180f}' | '\u{200b}'..='\u{200f}' | '\u{2028}'..='\u{202e}'
            | '\u{2060}'..='\u{206f}' | '\u{3164}' | '\u{fe00}'..='\u{fe0f}' | '\u{feff}' | '\u{ffa0}'
            | '\u{fff0}'..='\u{fffb}' | '\u{110bd}' | '\u{110cd}' | '\u{13430}'..='\u{1343f}'
            | '\u{1bca0}'..='\u{1bca3}' | '\u{1d173}'..='\u{1d17a}' | '\u{e0000}'..='\u{e0fff}')
}

/// Columns that text takes in a terminal: marks that stand above or below another character take none, characters that are as
/// wide as they are high take two. Of rare scripts it may be another number, which only moves a column.
pub fn width(text: &str) -> usize {
    text.chars().map(width_of).sum()
}

fn width_of(character: char) -> usize {
    match character {
        '\u{300}'..='\u{36f}'
        | '\u{483}'..='\u{489}'
        | '\u{591}'..='\u{5bd}'
        | '\u{64b}'..='\u{65f}'
        | '\u{1ab0}'..='\u{1aff}'
        | '\u{1dc0}'..='\u{1dff}'
        | '\u{20d0}'..='\u{20f0}'
        | '\u{3099}'..='\u{309a}'
        | '\u{fe20}'..='\u{fe2f}' => 0,
        '\u{1100}'..='\u{115f}'
        | '\u{2e80}'..='\u{303e}'
        | '\u{3041}'..='\u{4dbf}'
        | '\u{4e00}'..='\u{a4cf}'
        | '\u{a960}'..='\u{a97f}'
        | '\u{ac00}'..='\u{d7a3}'
        | '\u{f900}'..='\u{faff}'
        | '\u{fe30}'..='\u{fe6f}'
        | '\u{ff01}'..='\u{ff60}'
        | '\u{ffe0}'..='\u{ffe6}'
        | '\u{1f300}'..='\u{1f64f}'
        | '\u{1f680}'..='\u{1f6ff}'
        | '\u{1f900}'..='\u{1faff}'
        | '\u{20000}'..='\u{3fffd}' => 2,
        _ => 1,
    }
}

/// Where bytes stop being UTF-8, and what stands there.
#[derive(Clone, Copy, Debug, PartialEq, Eq)]
pub struct NoText {
    /// From the first byte on, which is 0.
    pub at: usize,
    bytes: [u8; NoText::SHOWN],
    length: usize,
    /// Whether they end inside a character.
    cut: bool,
}

impl NoText {
    /// No character has more bytes.
    const SHOWN: usize = 4;

    pub fn of(bytes: &[u8]) -> Option<NoText> {
        let error = std::str::from_utf8(bytes).err()?;
        let rest = &bytes[error.valid_up_to()..];
        let length = rest.len().min(NoText::SHOWN);
        let mut there = [0; NoText::SHOWN];
        there[..length].copy_from_slice(&rest[..length]);
        Some(NoText {
            at: error.valid_up_to(),
            bytes: there,
            length,
            cut: error.error_len().is_none(),
        })
    }

    /// The bytes that stand there, up to four, as hexadecimal digits.
    pub fn hex(&self) -> String {
        hex_digits(&self.bytes[..self.length], "")
    }

    /// A part of a sentence: what stands there.
    pub fn what(&self) -> String {
        let there = hex_digits(&self.bytes[..self.length], " ");
        match self.cut {
            true => format!("{there}, a character that is cut short"),
            false => format!("{there}, where no character starts"),
        }
    }
}

/// A path as one line of text: a worn disk may have any bytes in its names.
pub fn shown_path(path: impl AsRef<Path>) -> String {
    shown(path.as_ref().as_os_str().as_bytes())
}

fn hex_digits(bytes: &[u8], between: &str) -> String {
    let mut digits = String::new();
    for byte in bytes {
        let before = if digits.is_empty() { "" } else { between };
        write!(digits, "{before}{byte:02x}").expect("a string takes all");
    }
    digits
}

fn push_hex_escapes(text: &mut String, bytes: &[u8]) {
    for byte in bytes {
        write!(text, "\\x{byte:02x}").expect("a string takes all");
    }
}

/// The bytes that `shown` shows so.
pub fn of_shown(text: &str) -> Option<Vec<u8>> {
    let mut bytes = Vec::new();
    let mut rest = text;
    while let Some(at) = rest.find('\\') {
        bytes.extend(&rest.as_bytes()[..at]);
        rest = &rest[at + 1..];
        if let Some(after) = rest.strip_prefix('\\') {
            bytes.push(b'\\');
            rest = after;
        } else {
            let digits = rest.strip_prefix('x')?.get(..2)?;
            bytes.push(u8::from_str_radix(digits, 16).ok()?);
            rest = &rest[3..];
        }
    }
    bytes.extend(rest.as_bytes());
    Some(bytes)
}

/// Text that stands for itself in a page, between tags and in quotes.
pub fn html(text: &str) -> String {
    let mut escaped = String::new();
    for character in text.chars() {
        match character {
            '&' => escaped.push_str("&amp;"),
            '<' => escaped.push_str("&lt;"),
            '>' => escaped.push_str("&gt;"),
            '"' => escaped.push_str("&quot;"),
            '\'' => escaped.push_str("&#39;"),
            _ => escaped.push(character),
        }
    }
    escaped
}

/// A number with commas between thousands.
pub fn grouped(number: u64) -> String {
    let digits = number.to_string();
    let mut text = String::new();
    for (at, digit) in digits.chars().enumerate() {
        if at > 0 && (digits.len() - at).is_multiple_of(3) {
            text.push(',');
        }
        text.push(digit);
    }
    text
}

/// `1 record`, `2 records`.
pub fn counted(number: u64, one: &str, many: &str) -> String {
    format!(
        "{} {}",
        grouped(number),
        if number == 1 { one } else { many }
    )
}

/// One JSON object, field by field.
#[derive(Clone)]
pub struct Object(String);

impl Object {
    pub fn new() -> Object {
        Object(String::from("{"))
    }

    pub fn raw(mut self, name: &str, value: &str) -> Object {
        if self.0.len() > 1 {
            self.0.push(',');
        }
        push_string(&mut self.0, name);
        self.0.push(':');
        self.0.push_str(value);
        self
    }

    pub fn number(self, name: &str, value: u64) -> Object {
        self.raw(name, &value.to_string())
    }

    pub fn truth(self, name: &str, value: bool) -> Object {
        self.raw(name, if value { "true" } else { "false" })
    }

    pub fn text(self, name: &str, value: &str) -> Object {
        let value = string(value);
        self.raw(name, &value)
    }

    /// A string where the bytes are UTF-8, else an object with their hexadecimal digits.
    pub fn bytes(self, name: &str, value: &[u8]) -> Object {
        let value = of_bytes(value);
        self.raw(name, &value)
    }

    /// Milliseconds, and the same time in RFC 3339 where that has it.
    pub fn time(self, name: &str, time: u64) -> Object {
        let written = crate::time::rfc3339(time).map_or(String::from("null"), |text| string(&text));
        self.number(name, time)
            .raw(&format!("{name}_rfc3339"), &written)
    }

    /// With the fields of another one.
    pub fn and(mut self, other: &Object) -> Object {
        if self.0.len() > 1 && other.0.len() > 1 {
            self.0.push(',');
        }
        self.0.push_str(&other.0[1..]);
        self
    }

    /// What there is so far; its last value may be a list that is still to be written.
    pub fn unclosed(self) -> String {
        self.0
    }

    pub fn end(mut self) -> String {
        self.0.push('}');
        self.0
    }
}

pub fn array<T: AsRef<str>>(values: &[T]) -> String {
    let mut text = String::from("[");
    for (number, value) in values.iter().enumerate() {
        if number > 0 {
            text.push(',');
        }
        text.push_str(value.as_ref());
    }
    text.push(']');
    text
}

/// A list of strings.
pub fn strings(texts: &[String]) -> String {
    let texts: Vec<String> = texts.iter().map(|text| string(text)).collect();
    array(&texts)
}

pub fn string(value: &str) -> String {
    let mut text = String::new();
    push_string(&mut text, value);
    text
}

pub fn of_bytes(value: &[u8]) -> String {
    if let Ok(text) = std::str::from_utf8(value) {
        return string(text);
    }
    Object::new().text("hex", &hex_digits(value, "")).end()
}

fn push_string(text: &mut String, value: &str) {
    text.push('"');
    for character in value.chars() {
        match character {
            '"' => text.push_str("\\\""),
            '\\' => text.push_str("\\\\"),
            _ if is_unseen(character) => {
                for unit in character.encode_utf16(&mut [0; 2]) {
                    write!(text, "\\u{unit:04x}").expect("a string takes all");
                }
            }
            _ => text.push(character),
        }
    }
    text.push('"');
}

#[cfg(test)]
mod tests {
    use super::*;

    #[test]
    fn shown_bytes_come_back() {
        let all: Vec<u8> = (0..=255).collect();
        for bytes in [&all[..], b"", b"\\x41", b"C:\\", "Büro \u{85}".as_bytes()] {
            let text = shown(bytes);
            assert!(!text.chars().any(char::is_control));
            assert_eq!(of_shown(&text).as_deref(), Some(bytes));
        }
        for text in ["\\", "\\x", "\\x4", "\\xé", "\\n"] {
            assert_eq!(of_shown(text), None);
        }
    }

    #[test]
    fn what_is_not_seen_is_shown() {
        for (text, seen) in [
            ("a\u{202e}b", "a\\xe2\\x80\\xaeb"),
            ("\u{200b}\u{feff}", "\\xe2\\x80\\x8b\\xef\\xbb\\xbf"),
            ("\u{2066}\u{2069}", "\\xe2\\x81\\xa6\\xe2\\x81\\xa9"),
            ("Büro 東京 \u{1f4e6}", "Büro 東京 \u{1f4e6}"),
        ] {
            assert_eq!(shown(text.as_bytes()), seen);
            assert_eq!(of_shown(seen).as_deref(), Some(text.as_bytes()));
        }
        assert_eq!(string("\u{9b}\u{202e}"), r#""\u009b\u202e""#);
        assert_eq!(string("\u{e0041}"), r#""\udb40\udc41""#);
    }

    #[test]
    fn columns_are_those_of_a_terminal() {
        for (text, columns) in [
            ("", 0),
            ("Müller", 6),
            ("Mu\u{308}ller", 6),
            ("Ωμέγα", 5),
            ("東京", 4),
            ("\u{1f4e6}7", 3),
        ] {
            assert_eq!(width(text), columns, "{text}");
        }
    }

    #[test]
    fn what_is_no_text_is_told_with_its_place() {
        for (bytes, at, what) in [
            (
                &b"M\xfcller"[..],
                1,
                "fc 6c 6c 65, where no character starts",
            ),
            (b"\xc0\x80", 0, "c0 80, where no character starts"),
            (b"a\xed\xa0\x80", 1, "ed a0 80, where no character starts"),
            (
                b"\xf4\x90\x80\x80",
                0,
                "f4 90 80 80, where no character starts",
            ),
            (
                b"\xe2\x82\xac\xe2\x82",
                3,
                "e2 82, a character that is cut short",
            ),
            (b"\xc3", 0, "c3, a character that is cut short"),
        ] {
            let found = NoText::of(bytes).unwrap();
            assert_eq!((found.at, found.what().as_str()), (at, what));
        }
        assert_eq!(
            NoText::of("Müller 東京 \u{1f4e6}\0\u{ffff}".as_bytes()),
            None
        );
    }

    #[test]
    fn nothing_of_a_text_is_a_tag() {
        assert_eq!(
            html("<a b=\"c\" d='e'>&amp;</a> é"),
            "&lt;a b=&quot;c&quot; d=&#39;e&#39;&gt;&amp;amp;&lt;/a&gt; é"
        );
    }

    #[test]
    fn numbers_are_grouped() {
        assert_eq!(grouped(0), "0");
        assert_eq!(grouped(999), "999");
        assert_eq!(grouped(420_000_040), "420,000,040");
    }

    #[test]
    fn strings_are_json() {
        assert_eq!(string("a\"\\\n"), r#""a\"\\\u000a""#);
        assert_eq!(of_bytes(b"\xff\x01"), r#"{"hex":"ff01"}"#);
    }
}
