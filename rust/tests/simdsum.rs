//! The program simdsum: its lines, what it checks, and its statuses; where they do not name
//! the hash, the same as those of sha256sum.

use std::ffi::OsStr;
use std::fs;
use std::io::Write;
use std::os::unix::ffi::OsStrExt;
use std::path::{Path, PathBuf};
use std::process::{Command, Output, Stdio};

use simd::hash_bytes;

const SIMDSUM: &str = env!("CARGO_BIN_EXE_simdsum");

/// A folder of a test's own, removed at its end.
struct Folder(PathBuf);

impl Folder {
    fn new(name: &str) -> Folder {
        let path = std::env::temp_dir().join(format!("simdsum-{}-{name}", std::process::id()));
        fs::create_dir(&path).unwrap();
        Folder(path)
    }

    fn file(&self, name: impl AsRef<OsStr>, data: impl AsRef<[u8]>) {
        fs::write(self.0.join(Path::new(name.as_ref())), data).unwrap();
    }

    fn run_as<S: AsRef<OsStr>>(&self, program: &Path, arguments: &[S], input: &[u8]) -> Output {
        let mut child = Command::new(program)
            .args(arguments)
            .env("LC_ALL", "C")
            .current_dir(&self.0)
            .stdin(Stdio::piped())
            .stdout(Stdio::piped())
            .stderr(Stdio::piped())
            .spawn()
            .unwrap();
        // A program that does not read its input may be gone by now.
        let _ = child.stdin.take().unwrap().write_all(input);
        child.wait_with_output().unwrap()
    }

    /// (status, standard output, standard error) of simdsum.
    fn run<S: AsRef<OsStr>>(&self, arguments: &[S], input: &[u8]) -> (i32, String, String) {
        let output = self.run_as(Path::new(SIMDSUM), arguments, input);
        (
            output.status.code().unwrap(),
            String::from_utf8(output.stdout).unwrap(),
            String::from_utf8(output.stderr).unwrap(),
        )
    }
}

impl Drop for Folder {
    fn drop(&mut self) {
        let _ = fs::remove_dir_all(&self.0);
    }
}

fn hex(width: u16, data: &[u8]) -> String {
    hash_bytes(width, data).unwrap().to_string()
}

fn good(output: String) -> (i32, String, String) {
    (0, output, String::new())
}

#[test]
fn files_and_standard_input_at_each_width() {
    let folder = Folder::new("widths");
    let long: Vec<u8> = (0..200_000).map(|k| (k % 251) as u8).collect();
    folder.file("empty", b"");
    folder.file("long", &long);
    let none: [&str; 0] = [];
    assert_eq!(
        folder.run(&none, b"abc"),
        good(format!("{}  -\n", hex(256, b"abc")))
    );
    for width in [224, 256, 384, 512] {
        let lines = format!(
            "{}  empty\n{}  long\n{}  -\n",
            hex(width, b""),
            hex(width, &long),
            hex(width, b"abc")
        );
        let joined = format!("--width={width}");
        assert_eq!(
            folder.run(&[&joined, "empty", "long", "-"], b"abc"),
            good(lines.clone())
        );
        let apart = ["empty", "--width", &width.to_string(), "long", "--", "-"];
        assert_eq!(folder.run(&apart, b"abc"), good(lines));
    }
}

/// A file of zeros that has more bits than 32 bits count, all of it a hole; the digests are those of
/// tests/baseline/portable.c.
#[test]
fn a_file_above_half_a_gigabyte() {
    let folder = Folder::new("long");
    folder.file("zeros", b"");
    fs::OpenOptions::new()
        .write(true)
        .open(folder.0.join("zeros"))
        .unwrap()
        .set_len((1 << 29) + 1)
        .unwrap();
    for (width, digest) in [
        (
            256,
            "ebcb7624784918c56e1049782f311108925d355e82eb4db2e8870e89118e301a",
        ),
        (
            512,
            "6cc80252b36a41d71a7956c91d1e4f7f9a42c7151ac2064b44e369541117140b\
             2f3b0948b02a04e73015adba06f80692821a3aa8c6ccc62effd44cbbb2a14cea",
        ),
    ] {
        assert_eq!(
            folder.run(&[&format!("--width={width}"), "zeros"], b""),
            good(format!("{digest}  zeros\n"))
        );
    }
}

#[test]
fn styles() {
    let folder = Folder::new("styles");
    folder.file("a", b"abc");
    let digest = hex(512, b"abc");
    let run = |flags: &[&str]| folder.run(&[flags, &["--width=512", "a"]].concat(), b"");
    assert_eq!(run(&["-b"]), good(format!("{digest} *a\n")));
    assert_eq!(run(&["-bt"]), good(format!("{digest}  a\n")));
    assert_eq!(run(&["--tag"]), good(format!("SIMD-512 (a) = {digest}\n")));
    assert_eq!(run(&["-z"]), good(format!("{digest}  a\0")));
}

const ODD_NAMES: [&[u8]; 8] = [
    b"two words",
    b" first",
    b"back\\slash",
    b"line\nfeed",
    b"carriage\rreturn",
    b"\\",
    b"not utf-8: \xff\xfe",
    b"x) = y",
];

/// A list of odd names is read as it was written, in every style.
#[test]
fn odd_names() {
    let folder = Folder::new("names");
    let names: Vec<&OsStr> = ODD_NAMES
        .iter()
        .map(|name| OsStr::from_bytes(name))
        .collect();
    for name in &names {
        folder.file(name, name.as_bytes());
    }
    assert_eq!(
        folder.run(&[names[3]], b"").1,
        format!("\\{}  line\\nfeed\n", hex(256, b"line\nfeed"))
    );
    for flag in ["--text", "--binary", "--tag", "--width=384"] {
        let mut arguments = vec![OsStr::new(flag)];
        arguments.extend(&names);
        let list = folder.run_as(Path::new(SIMDSUM), &arguments, b"").stdout;
        assert_eq!(list.split(|byte| *byte == b'\n').count(), names.len() + 1);
        let checked = folder.run_as(Path::new(SIMDSUM), &["-c", "--strict"], &list);
        assert!(checked.status.success());
        assert!(checked.stderr.is_empty());
        assert_eq!(
            checked.stdout.split(|byte| *byte == b'\n').count(),
            names.len() + 1
        );
    }
}

#[test]
fn lists() {
    let folder = Folder::new("lists");
    for name in ["a", "b", "c"] {
        folder.file(name, name);
    }
    let (a, b, c) = (hex(224, b"a"), hex(384, b"b"), hex(512, b"c"));
    folder.file(
        "good",
        format!(
            "{a}  a\n# a comment\n{} *b\nSIMD-512 (c) = {c}",
            b.to_uppercase()
        ),
    );
    assert_eq!(
        folder.run(&["-c", "good"], b""),
        good("a: OK\nb: OK\nc: OK\n".into())
    );
    assert_eq!(folder.run(&["-c", "--quiet", "good"], b""), good("".into()));
    assert_eq!(
        folder.run(&["-c", "--status", "good"], b""),
        good("".into())
    );

    folder.file("wrong", format!("{a}  b\n{b}  b\n"));
    let wrong = "simdsum: WARNING: 1 computed checksum did NOT match\n";
    assert_eq!(
        folder.run(&["-c", "wrong"], b""),
        (1, "b: FAILED\nb: OK\n".into(), wrong.into())
    );
    assert_eq!(
        folder.run(&["-c", "--quiet", "wrong"], b""),
        (1, "b: FAILED\n".into(), wrong.into())
    );
    assert_eq!(
        folder.run(&["-c", "--status", "wrong"], b""),
        (1, "".into(), "".into())
    );

    folder.file("missing", format!("{a}  a\n{a}  none\n"));
    assert_eq!(
        folder.run(&["-c", "missing"], b""),
        (
            1,
            "a: OK\nnone: FAILED open or read\n".into(),
            "simdsum: none: No such file or directory\n\
             simdsum: WARNING: 1 listed file could not be read\n"
                .into()
        )
    );
    assert_eq!(
        folder.run(&["-c", "--ignore-missing", "missing"], b""),
        good("a: OK\n".into())
    );

    // A width that the digest's length does not have, and other lines that say nothing.
    let malformed = format!(
        "{a}  a\n{a} a\n{a}\n{}  a\nSIMD-256 (a) = {a}\nx\n",
        &a[2..]
    );
    let text = "simdsum: WARNING: 5 lines are improperly formatted\n";
    assert_eq!(
        folder.run(&["-c"], malformed.as_bytes()),
        (0, "a: OK\n".into(), text.into())
    );
    assert_eq!(
        folder.run(&["-c", "--strict"], malformed.as_bytes()),
        (1, "a: OK\n".into(), text.into())
    );
    assert_eq!(
        folder.run(&["-cw"], b"x\n"),
        (
            1,
            "".into(),
            "simdsum: 'standard input': 1: improperly formatted SIMD checksum line\n\
             simdsum: 'standard input': no properly formatted checksum lines found\n"
                .into()
        )
    );
}

#[test]
fn what_cannot_be_read_or_written() {
    let folder = Folder::new("unreadable");
    folder.file("a", b"a");
    let line = format!("{}  a\n", hex(256, b"a"));
    assert_eq!(
        folder.run(&["none", ".", "a", "two words"], b""),
        (
            1,
            line,
            "simdsum: none: No such file or directory\n\
             simdsum: .: Is a directory\n\
             simdsum: 'two words': No such file or directory\n"
                .into()
        )
    );
    assert_eq!(
        folder.run(&["-c", "none"], b""),
        (
            1,
            "".into(),
            "simdsum: none: No such file or directory\n".into()
        )
    );
    assert_eq!(
        folder.run(&["-c", "."], b""),
        (1, "".into(), "simdsum: .: Is a directory\n".into())
    );
    let full = Command::new(SIMDSUM)
        .arg("a")
        .current_dir(&folder.0)
        .stdout(
            fs::OpenOptions::new()
                .write(true)
                .open("/dev/full")
                .unwrap(),
        )
        .output()
        .unwrap();
    assert_eq!(full.status.code(), Some(1));
    assert_eq!(
        String::from_utf8(full.stderr).unwrap(),
        "simdsum: write error: No space left on device\n"
    );
}

#[test]
fn arguments() {
    let folder = Folder::new("arguments");
    let (status, output, errors) = folder.run(&["--help"], b"");
    assert_eq!((status, errors.as_str()), (0, ""));
    assert!(output.starts_with("Usage: simdsum [OPTION]... [FILE]...\n"));
    assert_eq!(folder.run(&["-h"], b""), good(output));
    let version = format!("simdsum {}\n", env!("CARGO_PKG_VERSION"));
    assert_eq!(folder.run(&["--version", "none"], b""), good(version));

    for (arguments, reason) in [
        (&["--nothing"][..], "unrecognized option '--nothing'"),
        (&["-q"], "invalid option -- 'q'"),
        (&["--check=1"], "option '--check' doesn't allow an argument"),
        (&["--width"], "option '--width' requires an argument"),
        (
            &["--width=160"],
            "invalid width: '160': none of 224, 256, 384 and 512",
        ),
        (
            &["--width=65792"],
            "invalid width: '65792': none of 224, 256, 384 and 512",
        ),
        (
            &["--width", "x"],
            "invalid width: 'x': none of 224, 256, 384 and 512",
        ),
        (
            &["--quiet"],
            "the --quiet option is meaningful only when checking",
        ),
        (
            &["-c", "--tag"],
            "the --tag option is meaningless when checking",
        ),
        (
            &["-c", "--width=256"],
            "the --width option is meaningless when checking",
        ),
    ] {
        let text = format!("simdsum: {reason}\nTry 'simdsum --help' for more information.\n");
        assert_eq!(folder.run(arguments, b"abc"), (1, String::new(), text));
    }
}

/// Standard output and status beside those of sha256sum, with the digests of each exchanged for the
/// other's.
#[test]
fn beside_sha256sum() {
    let folder = Folder::new("beside");
    let other = Path::new("sha256sum");
    let names: Vec<&[u8]> = [&b"a"[..], b"b"].into_iter().chain(ODD_NAMES).collect();
    let mut exchanged = Vec::new();
    for name in &names {
        folder.file(OsStr::from_bytes(name), name);
        let line = folder.run_as(other, &["-z", "-"], name).stdout;
        let theirs = String::from_utf8(line[..64].to_vec()).unwrap();
        exchanged.push((theirs, hex(256, name)));
    }
    let ours = |text: &[u8]| {
        let mut text = text.to_vec();
        for (theirs, ours) in &exchanged {
            while let Some(at) = text.windows(64).position(|part| part == theirs.as_bytes()) {
                text[at..at + 64].copy_from_slice(ours.as_bytes());
            }
        }
        text
    };
    let compare = |arguments: &[&OsStr], input: &[u8]| {
        let theirs = folder.run_as(other, arguments, input);
        let found = folder.run_as(Path::new(SIMDSUM), arguments, &ours(input));
        let text = String::from_utf8_lossy(&found.stdout);
        assert_eq!(
            text,
            String::from_utf8_lossy(&ours(&theirs.stdout)),
            "{arguments:?}"
        );
        assert_eq!(found.status.code(), theirs.status.code(), "{arguments:?}");
        assert_eq!(
            found.stderr.is_empty(),
            theirs.stderr.is_empty(),
            "{arguments:?}"
        );
        theirs.stdout
    };
    let files: Vec<&OsStr> = names.iter().map(|name| OsStr::from_bytes(name)).collect();
    // Beside a verdict, versions of sha256sum differ in which of these names they escape.
    let settled: Vec<&OsStr> = files
        .iter()
        .filter(|name| !name.as_bytes().iter().any(|byte| b"\\\r".contains(byte)))
        .copied()
        .collect();
    for flags in ["-t", "-b", "-z"] {
        let flags = OsStr::new(flags);
        compare(&[&[flags], &files[..]].concat(), b"");
        let list = compare(&[&[flags], &settled[..]].concat(), b"");
        if flags != "-z" {
            compare(&[OsStr::new("-c")], &list);
            compare(&[OsStr::new("-c"), OsStr::new("--quiet")], &list);
            let mut damaged = list.clone();
            let second = list.iter().position(|byte| *byte == b'\n').unwrap() + 1;
            damaged[second] = b'x';
            compare(&[OsStr::new("-c")], &damaged);
            compare(&[OsStr::new("-c"), OsStr::new("--strict")], &damaged);
            compare(&[OsStr::new("-c"), OsStr::new("--status")], &damaged);
        }
    }
    let digest = exchanged[0].0.as_str();
    for list in [
        String::new(),
        "\n".into(),
        "# nothing\n".into(),
        format!("{digest}  a"),
        format!("{digest}  a\r\n"),
        format!("{digest}  b\n"),
        format!("  {digest}  a\n"),
        format!("{digest}  none\n{digest}  a\n"),
        format!("{digest}  none\n"),
        format!("{digest}0  a\n"),
        format!("{digest}\n"),
        format!("\\{digest}  a\n"),
        format!("\\{digest}  a\\\n"),
        format!("\\{digest}  a\\x\n"),
        format!("{digest}  -\n"),
    ] {
        for flags in [
            &["-c"][..],
            &["-c", "--ignore-missing"],
            &["-c", "--strict", "--warn"],
        ] {
            let flags: Vec<&OsStr> = flags.iter().map(OsStr::new).collect();
            compare(&flags, list.as_bytes());
        }
    }
    for arguments in [
        &["none"][..],
        &["."],
        &["a", "none", "b"],
        &["-c", "a"],
        &["-c", "none", "."],
    ] {
        let arguments: Vec<&OsStr> = arguments.iter().map(OsStr::new).collect();
        compare(&arguments, b"");
    }
}

/// README's commands print what stands below them.
#[test]
fn readme_example() {
    let readme = include_str!("../../README.md");
    let blocks: Vec<&str> = readme.split("```").collect();
    let at = blocks
        .iter()
        .position(|block| block.starts_with("sh\n") && block.contains("simdsum -c"))
        .unwrap();
    let commands = blocks[at].strip_prefix("sh\n").unwrap();
    let expected = blocks[at + 2].strip_prefix('\n').unwrap();
    let folder = Folder::new("readme");
    let mut path = Path::new(SIMDSUM).parent().unwrap().as_os_str().to_owned();
    path.push(":");
    path.push(std::env::var_os("PATH").unwrap());
    let output = Command::new("sh")
        .args(["-ec", commands])
        .env("PATH", path)
        .current_dir(&folder.0)
        .output()
        .unwrap();
    assert_eq!(String::from_utf8(output.stdout).unwrap(), expected);
    assert_eq!(String::from_utf8(output.stderr).unwrap(), "");
    assert!(output.status.success());
}
