//! Words of a command line that a shell takes back as they were.

use crate::args::Args;
use crate::text::is_unseen;
use std::os::unix::ffi::OsStrExt;

/// A word as a shell reads it. What a terminal would not show, or show otherwise, is written as escapes of `$'..'`.
pub fn quoted(word: &[u8]) -> String {
    let plain = |byte: &u8| byte.is_ascii_alphanumeric() || b"_@%+=:,./-".contains(byte);
    match std::str::from_utf8(word) {
        Ok(text) if !text.is_empty() && word.iter().all(plain) => String::from(text),
        Ok(text) if !text.contains(is_unseen) => format!("'{}'", text.replace('\'', "'\\''")),
        _ => escaped(word),
    }
}

/// The place of a command: one that starts with a hyphen would be taken for an option.
pub fn place(path: &[u8]) -> String {
    match path.starts_with(b"-") {
        true => quoted(&[b"./", path].concat()),
        false => quoted(path),
    }
}

/// Another command for the same place, with those of the options that were given here.
pub fn call(args: &Args, command: &str, options: &[&str]) -> String {
    let place = place(args.place().as_os_str().as_bytes());
    let mut call = format!("swistopal {command} {place}");
    for name in options {
        if let Some(value) = args.value(name) {
            call += &format!(" {name} {}", quoted(value.as_bytes()));
        }
    }
    call
}

fn escaped(word: &[u8]) -> String {
    let mut text = String::from("$'");
    for byte in word {
        match byte {
            b'\\' | b'\'' => text.extend(['\\', char::from(*byte)]),
            b' '..=b'~' => text.push(char::from(*byte)),
            _ => text.push_str(&format!("\\{byte:03o}")),
        }
    }
    text.push('\'');
    text
}

#[cfg(test)]
mod tests {
    use super::*;
    use std::process::Command;

    #[test]
    fn a_shell_takes_words_back() {
        let words: [&[u8]; 10] = [
            b"/srv/store-1",
            b"",
            b"two words",
            b"it's; rm -rf $HOME",
            b"a\\b",
            b"\"q\"",
            "Büro".as_bytes(),
            "a\u{202e}b".as_bytes(),
            b"\xff\x1b[2J\n1'\\",
            b"*",
        ];
        for word in words {
            let text = quoted(word);
            assert!(!text.contains(is_unseen), "{text}");
            let script = format!("printf %s {text}");
            let said = Command::new("bash").args(["-c", &script]).output().unwrap();
            assert_eq!(said.stdout, word, "{text}");
        }
        assert_eq!(quoted(b"/srv/store-1"), "/srv/store-1");
    }

    #[test]
    fn a_place_is_no_option() {
        assert_eq!(place(b"-x"), "./-x");
        assert_eq!(place(b"- x"), "'./- x'");
    }
}
