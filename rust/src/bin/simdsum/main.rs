//! Prints and checks SIMD v1.1 digests of files, in the manner of `sha256sum`.

mod line;
mod options;

use std::ffi::OsStr;
use std::fs::File;
use std::io::{self, BufRead, BufReader, Read, Write};
use std::os::unix::ffi::OsStrExt;
use std::process::ExitCode;

use options::{Asked, Options};
use simd::{Digest, Hash};

/// What is read at once; a feed of this size spends nearly all its time in the compression.
const PIECE: usize = 65_536;

fn main() -> ExitCode {
    let asked = match options::parse(std::env::args_os().skip(1)) {
        Ok(asked) => asked,
        Err(reason) => {
            say(&format!(
                "{reason}\nTry 'simdsum --help' for more information."
            ));
            return ExitCode::FAILURE;
        }
    };
    let mut out = io::stdout().lock();
    let done = match asked {
        Asked::Help => out.write_all(options::HELP.as_bytes()).map(|()| true),
        Asked::Version => writeln!(out, "simdsum {}", env!("CARGO_PKG_VERSION")).map(|()| true),
        Asked::Print(options) => print(&options, &mut out),
        Asked::Check(options) => check(&options, &mut out),
    };
    match done.and_then(|good| out.flush().map(|()| good)) {
        Ok(true) => ExitCode::SUCCESS,
        Ok(false) => ExitCode::FAILURE,
        Err(error) => {
            say(&format!("write error: {}", reason(&error)));
            ExitCode::FAILURE
        }
    }
}

/// To standard error; where that fails there is nobody left to tell.
fn say(text: &str) {
    let _ = writeln!(io::stderr(), "simdsum: {text}");
}

/// An error in words, without the number that the standard library adds.
fn reason(error: &io::Error) -> String {
    let text = error.to_string();
    match text.split_once(" (os error ") {
        Some((words, _)) => words.to_string(),
        None => text,
    }
}

/// `-` is standard input.
fn reader(name: &OsStr) -> io::Result<BufReader<Box<dyn Read>>> {
    let input: Box<dyn Read> = if name == "-" {
        Box::new(io::stdin())
    } else {
        Box::new(File::open(name)?)
    };
    Ok(BufReader::with_capacity(PIECE, input))
}

fn digest(name: &OsStr, width: u16) -> io::Result<Digest> {
    let mut hash = Hash::open(width)?;
    io::copy(&mut reader(name)?, &mut hash)?;
    Ok(hash.take().digest)
}

/// Prints a line for each file; whether all could be read. An error is one of writing.
fn print(options: &Options, out: &mut impl Write) -> io::Result<bool> {
    let mut good = true;
    for name in &options.files {
        match digest(name, options.width) {
            Ok(digest) => {
                out.write_all(&line::write(&digest, name, options.style, options.zero))?;
            }
            Err(error) => {
                say(&format!("{}: {}", line::quoted(name), reason(&error)));
                good = false;
            }
        }
    }
    Ok(good)
}

/// Checks the files that each list names; whether all were right. An error is one of writing.
fn check(options: &Options, out: &mut impl Write) -> io::Result<bool> {
    let mut good = true;
    for name in &options.files {
        good &= check_list(name, options, out)?;
    }
    Ok(good)
}

/// What was found in a list.
#[derive(Default)]
struct Found {
    lines: u64,
    malformed: u64,
    unread: u64,
    matching: u64,
    different: u64,
}

fn check_list(list: &OsStr, options: &Options, out: &mut impl Write) -> io::Result<bool> {
    let shown = if list == "-" {
        "'standard input'".to_string()
    } else {
        line::quoted(list)
    };
    let mut found = Found::default();
    let lines = match reader(list) {
        Ok(reader) => reader.split(b'\n'),
        Err(error) => {
            say(&format!("{shown}: {}", reason(&error)));
            return Ok(false);
        }
    };
    for (number, text) in (1..).zip(lines) {
        let text = match text {
            Ok(text) => text,
            Err(error) => {
                say(&format!("{shown}: {}", reason(&error)));
                return Ok(false);
            }
        };
        if text.first() == Some(&b'#') {
            continue;
        }
        match line::read(&text) {
            // A list that comes from standard input cannot name standard input too.
            Some(listed) if list != "-" || listed.name != "-" => {
                found.lines += 1;
                check_line(&listed, options, &mut found, out)?;
            }
            _ => {
                found.malformed += 1;
                if options.warn {
                    say(&format!(
                        "{shown}: {number}: improperly formatted SIMD checksum line"
                    ));
                }
            }
        }
    }
    out.flush()?;
    Ok(report(&found, &shown, options))
}

fn check_line(
    listed: &line::Listed,
    options: &Options,
    found: &mut Found,
    out: &mut impl Write,
) -> io::Result<()> {
    let verdict = match digest(&listed.name, listed.width) {
        Ok(digest) if digest.as_bytes() == listed.digest => {
            found.matching += 1;
            if options.quiet {
                return Ok(());
            }
            "OK"
        }
        Ok(_) => {
            found.different += 1;
            "FAILED"
        }
        Err(error) => {
            if options.ignore_missing && error.kind() == io::ErrorKind::NotFound {
                return Ok(());
            }
            say(&format!(
                "{}: {}",
                line::quoted(&listed.name),
                reason(&error)
            ));
            found.unread += 1;
            "FAILED open or read"
        }
    };
    if options.status {
        return Ok(());
    }
    let (mark, name) = line::escaped(listed.name.as_bytes());
    out.write_all(mark)?;
    out.write_all(&name)?;
    writeln!(out, ": {verdict}")
}

/// The warnings at the end of a list; whether it was right.
fn report(found: &Found, shown: &str, options: &Options) -> bool {
    if found.lines == 0 {
        say(&format!(
            "{shown}: no properly formatted checksum lines found"
        ));
        return false;
    }
    let warn = |count: u64, one: &str, more: &str| {
        if count > 0 && !options.status {
            let words = if count == 1 { one } else { more };
            say(&format!("WARNING: {count} {words}"));
        }
    };
    warn(
        found.malformed,
        "line is improperly formatted",
        "lines are improperly formatted",
    );
    warn(
        found.unread,
        "listed file could not be read",
        "listed files could not be read",
    );
    warn(
        found.different,
        "computed checksum did NOT match",
        "computed checksums did NOT match",
    );
    let verified = !options.ignore_missing || found.matching > 0;
    if !verified && !options.status {
        say(&format!("{shown}: no file was verified"));
    }
    let well_formed = !options.strict || found.malformed == 0;
    verified && well_formed && found.unread == 0 && found.different == 0
}
