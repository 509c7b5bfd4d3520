//! Names: bytes in Mac OS Roman, shown and taken as UTF-8 text, one character for one byte. What can't be shown is
//! `\xNN`, and a backslash is `\\`.

use std::ffi::OsStr;
use std::fmt::Write;
use std::os::unix::ffi::OsStrExt;

/// The characters of the bytes 80 to FF hex.
#[rustfmt::skip]
const HIGH: [char; 128] = [
    'Ä', 'Å', 'Ç', 'É', 'Ñ', 'Ö', 'Ü', 'á', 'à', 'â', 'ä', 'ã', 'å', 'ç', 'é', 'è',
    'ê', 'ë', 'í', 'ì', 'î', 'ï', 'ñ', 'ó', 'ò', 'ô', 'ö', 'õ', 'ú', 'ù', 'û', 'ü',
    '†', '°', '¢', '£', '§', '•', '¶', 'ß', '®', '©', '™', '´', '¨', '≠', 'Æ', 'Ø',
    '∞', '±', '≤', '≥', '¥', 'µ', '∂', '∑', '∏', 'π', '∫', 'ª', 'º', 'Ω', 'æ', 'ø',
    '¿', '¡', '¬', '√', 'ƒ', '≈', '∆', '«', '»', '…', '\u{A0}', 'À', 'Ã', 'Õ', 'Œ', 'œ',
    '–', '—', '“', '”', '‘', '’', '÷', '◊', 'ÿ', 'Ÿ', '⁄', '€', '‹', '›', 'ﬁ', 'ﬂ',
    '‡', '·', '‚', '„', '‰', 'Â', 'Ê', 'Á', 'Ë', 'È', 'Í', 'Î', 'Ï', 'Ì', 'Ó', 'Ô',
    '\u{F8FF}', 'Ò', 'Ú', 'Û', 'Ù', 'ı', 'ˆ', '˜', '¯', '˘', '˙', '˚', '¸', '˝', '˛', 'ˇ',
];

/// The bytes of `HIGH` that a terminal can't show: the no-break space, which looks like a space, and Apple's sign, for
/// which Unicode has no character.
const HIDDEN: [u8; 2] = [0xCA, 0xF0];

/// A name as text.
pub fn shown(name: &[u8]) -> String {
    let mut text = String::new();
    for &byte in name {
        match character(byte) {
            '\\' => text.push_str("\\\\"),
            character if character.is_control() || HIDDEN.contains(&byte) => push_hex(&mut text, byte),
            character => text.push(character),
        }
    }
    text
}

fn character(byte: u8) -> char {
    let high = usize::from(byte).checked_sub(0x80);
    let high = high.and_then(|place| HIGH.get(place));
    high.copied().unwrap_or(char::from(byte))
}

fn push_hex(text: &mut String, byte: u8) {
    // writing to a String never fails
    let _ = write!(text, "\\x{byte:02X}");
}

/// The byte of a character.
fn byte(character: char) -> Result<u8, String> {
    if character.is_ascii() {
        return Ok(character as u8);
    }
    match HIGH.iter().position(|&high| high == character) {
        Some(place) => Ok(0x80 + place as u8),
        None => Err(format!("Mac OS Roman has no character {character:?}")),
    }
}

/// The name that an argument gives.
pub fn parsed(argument: &OsStr) -> Result<Vec<u8>, String> {
    let mut name = Vec::new();
    let mut rest = argument.to_str().ok_or("it is not UTF-8")?.chars();
    while let Some(next) = rest.next() {
        name.push(match next {
            '\\' => escaped(&mut rest)?,
            _ => byte(next)?,
        });
    }
    Ok(name)
}

/// The byte of an escape whose backslash was read.
fn escaped(rest: &mut std::str::Chars) -> Result<u8, String> {
    let digit = |character: Option<char>| character.and_then(|c| c.to_digit(16));
    match rest.next() {
        Some('\\') => return Ok(b'\\'),
        Some('x') => {
            if let (Some(high), Some(low)) = (digit(rest.next()), digit(rest.next())) {
                return Ok((high * 16 + low) as u8);
            }
        }
        _ => {}
    }
    Err(r"a backslash stands only in \\ and in \xNN, with two hex digits".to_string())
}

/// The name on the volume of a file of this machine. Of a backslash it is not known whether an escape is meant.
pub fn of_file(name: &OsStr) -> Result<Vec<u8>, String> {
    if name.as_bytes().contains(&b'\\') {
        return Err("it has a backslash".to_string());
    }
    parsed(name)
}

/// A name in document 01's listing: bytes outside 20 to 7E hex are `?`.
pub fn listed(name: &[u8]) -> Vec<u8> {
    let shown = |&byte: &u8| if (0x20..=0x7E).contains(&byte) { byte } else { b'?' };
    name.iter().map(shown).collect()
}

/// A path of this machine as text: bytes that are no UTF-8, and control characters, as `\xNN`.
pub fn path(path: &OsStr) -> String {
    let mut text = String::new();
    for chunk in path.as_bytes().utf8_chunks() {
        for character in chunk.valid().chars() {
            if character.is_control() {
                push_hex(&mut text, character as u8);
            } else {
                text.push(character);
            }
        }
        chunk.invalid().iter().for_each(|&byte| push_hex(&mut text, byte));
    }
    text
}

/// Bytes as hex digits.
pub fn hex(bytes: &[u8]) -> String {
    bytes.iter().map(|byte| format!("{byte:02X}")).collect()
}

#[cfg(test)]
mod tests {
    use super::*;
    use std::ffi::OsString;
    use std::os::unix::ffi::OsStringExt;

    #[test]
    fn every_byte_comes_back() {
        for byte in 0..=255 {
            let text = shown(&[byte]);
            assert_eq!(parsed(OsStr::new(&text)), Ok(vec![byte]), "{text}");
            let plain = text.chars().count() == 1;
            let escaped = byte < 0x20 || [b'\\', 0x7F, 0xCA, 0xF0].contains(&byte);
            assert_eq!(plain, !escaped, "{text}");
        }
        assert_eq!(shown(b"Relev\x8E \\ \r"), r"Relevé \\ \x0D");
    }

    #[test]
    fn arguments() {
        assert_eq!(parsed(OsStr::new("\u{A0}\u{F8FF}")), Ok(vec![0xCA, 0xF0]));
        assert_eq!(parsed(OsStr::new(r"\xca\xCA\\")), Ok(vec![0xCA, 0xCA, b'\\']));
        assert_eq!(parsed(OsStr::new("")), Ok(vec![]));
        for bad in [r"\", r"\x", r"\x1", r"\xG0", r"\x+1", r"\n", "日", "e\u{301}"] {
            assert!(parsed(OsStr::new(bad)).is_err(), "{bad}");
        }
        assert!(parsed(&OsString::from_vec(vec![0x8E])).is_err());
        assert!(of_file(OsStr::new(r"a\x41")).is_err());
        assert_eq!(of_file(OsStr::new("é")), Ok(vec![0x8E]));
    }

    #[test]
    fn paths() {
        assert_eq!(path(OsStr::new("a é\\b\n")), "a é\\b\\x0A");
        assert_eq!(path(OsStr::new("\u{85}")), r"\x85");
        assert_eq!(path(&OsString::from_vec(vec![b'a', 0xFF, b'b'])), r"a\xFFb");
    }

    #[test]
    fn the_listing_of_document_01() {
        assert_eq!(listed(b"A~\x7F\x8E \x1F"), b"A~?? ?");
    }
}
