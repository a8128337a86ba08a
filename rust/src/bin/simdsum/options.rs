//! The arguments.

use std::ffi::OsString;
use std::os::unix::ffi::OsStrExt;

use crate::line::Style;

pub const HELP: &str = "\
Usage: simdsum [OPTION]... [FILE]...
Print or check SIMD v1.1 digests.

With no FILE, or when FILE is -, read standard input.

      --width=N         bits of the digest: 224, 256 (the default), 384 or 512
  -b, --binary          mark each name by an asterisk; it is read the same way
  -c, --check           read digests from the FILEs and check them
      --tag             create a BSD-style line: SIMD-256 (NAME) = DIGEST
  -t, --text            mark each name by a space (the default)
  -z, --zero            end each line with a zero byte, and escape no names

The following are useful only when checking:
      --ignore-missing  don't fail or report status for missing files
      --quiet           don't print OK for each file that is right
      --status          don't output anything, the exit status shows success
      --strict          exit non-zero for improperly formatted lines
  -w, --warn            warn about improperly formatted lines

  -h, --help            display this help and exit
      --version         output version information and exit

A digest is printed with its file's name. In a name backslash, line feed and
carriage return are written as \\\\, \\n and \\r, and the line begins with a
backslash then. When checking, the width follows from the digest.

The exit status is 0 if all went well, else 1.
";

pub struct Options {
    pub width: u16,
    pub style: Style,
    pub zero: bool,
    pub ignore_missing: bool,
    pub quiet: bool,
    pub status: bool,
    pub strict: bool,
    pub warn: bool,
    pub files: Vec<OsString>,
}

/// What the arguments ask for.
pub enum Asked {
    Help,
    Version,
    Print(Options),
    Check(Options),
}

/// The options without a value, by their long names, with their letters.
const FLAGS: [(&str, Option<u8>); 12] = [
    ("binary", Some(b'b')),
    ("check", Some(b'c')),
    ("tag", None),
    ("text", Some(b't')),
    ("zero", Some(b'z')),
    ("ignore-missing", None),
    ("quiet", None),
    ("status", None),
    ("strict", None),
    ("warn", Some(b'w')),
    ("help", Some(b'h')),
    ("version", None),
];

/// The options that mean something only with `--check`.
const CHECKING: [&str; 5] = ["ignore-missing", "quiet", "status", "strict", "warn"];
/// Those that mean something only without.
const PRINTING: [&str; 5] = ["width", "binary", "tag", "text", "zero"];

/// Options and files may come in any order; after `--` all are files. An error is a text for the
/// user.
pub fn parse(arguments: impl Iterator<Item = OsString>) -> Result<Asked, String> {
    let mut arguments = arguments;
    let mut given: Vec<&str> = Vec::new();
    let mut width = 256;
    let mut files = Vec::new();
    while let Some(argument) = arguments.next() {
        let bytes = argument.as_bytes();
        if bytes == b"--" {
            files.extend(arguments);
            break;
        } else if let Some(long) = bytes.strip_prefix(b"--") {
            let long = String::from_utf8_lossy(long);
            let (name, value) = match long.split_once('=') {
                Some((name, value)) => (name, Some(value.to_string())),
                None => (&*long, None),
            };
            if name == "width" {
                let value = match value {
                    Some(value) => value,
                    None => {
                        let next = arguments
                            .next()
                            .ok_or("option '--width' requires an argument")?;
                        next.to_string_lossy().into_owned()
                    }
                };
                width = width_of(&value)?;
                given.push("width");
                continue;
            }
            match FLAGS.iter().find(|(flag, _)| *flag == name) {
                Some(_) if value.is_some() => {
                    return Err(format!("option '--{name}' doesn't allow an argument"))
                }
                Some((flag, _)) => given.push(flag),
                None => return Err(format!("unrecognized option '--{long}'")),
            }
        } else if bytes.len() > 1 && bytes[0] == b'-' {
            for &letter in &bytes[1..] {
                match FLAGS.iter().find(|(_, short)| *short == Some(letter)) {
                    Some((flag, _)) => given.push(flag),
                    None => {
                        let letter = char::from(letter).escape_default();
                        return Err(format!("invalid option -- '{letter}'"));
                    }
                }
            }
        } else {
            files.push(argument);
        }
    }
    let is = |flag: &str| given.contains(&flag);
    if let Some(first) = given
        .iter()
        .find(|flag| **flag == "help" || **flag == "version")
    {
        return Ok(if *first == "help" {
            Asked::Help
        } else {
            Asked::Version
        });
    }
    let (senseless, when) = if is("check") {
        (PRINTING, "is meaningless when checking")
    } else {
        (CHECKING, "is meaningful only when checking")
    };
    if let Some(flag) = senseless.into_iter().find(|flag| is(flag)) {
        return Err(format!("the --{flag} option {when}"));
    }
    // Of --binary and --text the last one counts.
    let last = given
        .iter()
        .rfind(|flag| **flag == "binary" || **flag == "text");
    let style = match last {
        _ if is("tag") => Style::Tag,
        Some(&"binary") => Style::Binary,
        _ => Style::Text,
    };
    if files.is_empty() {
        files.push(OsString::from("-"));
    }
    let options = Options {
        width,
        style,
        zero: is("zero"),
        ignore_missing: is("ignore-missing"),
        quiet: is("quiet"),
        status: is("status"),
        strict: is("strict"),
        warn: is("warn"),
        files,
    };
    Ok(if is("check") {
        Asked::Check(options)
    } else {
        Asked::Print(options)
    })
}

fn width_of(text: &str) -> Result<u16, String> {
    match text.parse() {
        Ok(width @ (224 | 256 | 384 | 512)) => Ok(width),
        _ => Err(format!(
            "invalid width: '{text}': none of 224, 256, 384 and 512"
        )),
    }
}
