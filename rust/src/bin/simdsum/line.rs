//! The lines of a list: written, read, and the names in them.

use std::ffi::{OsStr, OsString};
use std::os::unix::ffi::{OsStrExt, OsStringExt};

use simd::Digest;

/// How a line is written.
#[derive(Clone, Copy, PartialEq, Eq)]
pub enum Style {
    /// The digest, two spaces, the name.
    Text,
    /// The digest, a space, an asterisk, the name.
    Binary,
    /// `SIMD-256 (name) = digest`.
    Tag,
}

/// What a line of a list says.
pub struct Listed {
    pub name: OsString,
    pub digest: Vec<u8>,
    pub width: u16,
}

/// A name in which backslash, line feed and carriage return stand as `\\`, `\n` and `\r`, and the
/// backslash that marks its line where it has one of these.
pub fn escaped(name: &[u8]) -> (&'static [u8], Vec<u8>) {
    let text: Vec<u8> = name
        .iter()
        .flat_map(|&byte| match byte {
            b'\\' => b"\\\\".to_vec(),
            b'\n' => b"\\n".to_vec(),
            b'\r' => b"\\r".to_vec(),
            _ => vec![byte],
        })
        .collect();
    let mark: &[u8] = if text.len() > name.len() { b"\\" } else { b"" };
    (mark, text)
}

fn unescaped(text: &[u8]) -> Option<Vec<u8>> {
    let mut bytes = text.iter();
    let mut name = Vec::new();
    while let Some(&byte) = bytes.next() {
        name.push(match byte {
            b'\\' => match bytes.next()? {
                b'\\' => b'\\',
                b'n' => b'\n',
                b'r' => b'\r',
                _ => return None,
            },
            _ => byte,
        });
    }
    Some(name)
}

/// A name for a message: in quotes, as a shell would read it, unless it is plain.
pub fn quoted(name: &OsStr) -> String {
    let bytes = name.as_bytes();
    let plain = |byte: &u8| byte.is_ascii_alphanumeric() || b"_-./+,@%=^".contains(byte);
    if !bytes.is_empty() && bytes.iter().all(plain) {
        return name.to_string_lossy().into_owned();
    }
    let mut text = String::from("'");
    for &byte in bytes {
        match byte {
            b'\'' => text.push_str("'\\''"),
            b'\n' => text.push_str("'$'\\n''"),
            b'\r' => text.push_str("'$'\\r''"),
            b' '..=b'~' => text.push(char::from(byte)),
            _ => text.push_str(&format!("'$'\\{byte:03o}''")),
        }
    }
    text + "'"
}

/// A line with its end: a zero byte, and the name as it is, where `zero` says so.
pub fn write(digest: &Digest, name: &OsStr, style: Style, zero: bool) -> Vec<u8> {
    let (mark, name) = if zero {
        (&b""[..], name.as_bytes().to_vec())
    } else {
        escaped(name.as_bytes())
    };
    let mut line = mark.to_vec();
    match style {
        Style::Tag => {
            line.extend(format!("SIMD-{} (", digest.width()).bytes());
            line.extend(&name);
            line.extend(format!(") = {digest}").bytes());
        }
        Style::Text | Style::Binary => {
            line.extend(digest.to_string().bytes());
            line.extend(if style == Style::Binary { b" *" } else { b"  " });
            line.extend(&name);
        }
    }
    line.push(if zero { 0 } else { b'\n' });
    line
}

/// A line of a list, in any style and without its line feed; a carriage return before that is no
/// part of the name. The width follows from the digest.
pub fn read(line: &[u8]) -> Option<Listed> {
    let line = line.strip_suffix(b"\r").unwrap_or(line);
    let start = line.iter().position(|byte| !b" \t".contains(byte))?;
    let line = &line[start..];
    let (marked, line) = match line.strip_prefix(b"\\") {
        Some(rest) => (true, rest),
        None => (false, line),
    };
    let (name, hex, width) = match line.strip_prefix(b"SIMD-") {
        Some(rest) => {
            let middle = rest.windows(4).rposition(|four| four == b") = ")?;
            let (tag, name) = rest[..middle].split_at_checked(5)?;
            let width = std::str::from_utf8(tag).ok()?.strip_suffix(" (")?;
            (name, &rest[middle + 4..], Some(width.parse().ok()?))
        }
        None => {
            let end = line.iter().position(|byte| *byte == b' ')?;
            let name = line[end + 1..]
                .strip_prefix(b" ")
                .or_else(|| line[end + 1..].strip_prefix(b"*"))?;
            (name, &line[..end], None)
        }
    };
    let digest = from_hex(hex)?;
    let found = u16::try_from(8 * digest.len()).ok()?;
    if name.is_empty()
        || ![224, 256, 384, 512].contains(&found)
        || width.is_some_and(|w: u16| w != found)
    {
        return None;
    }
    let name = if marked {
        unescaped(name)?
    } else {
        name.to_vec()
    };
    Some(Listed {
        name: OsString::from_vec(name),
        digest,
        width: found,
    })
}

fn from_hex(hex: &[u8]) -> Option<Vec<u8>> {
    let value = |digit: u8| char::from(digit).to_digit(16).map(|value| value as u8);
    let pairs = hex.chunks_exact(2);
    if !pairs.remainder().is_empty() {
        return None;
    }
    pairs
        .map(|pair| Some(16 * value(pair[0])? + value(pair[1])?))
        .collect()
}
