//! Running the program, and files for it.
use std::ffi::OsStr;
use std::fs;
use std::io::Write;
use std::path::Path;
use std::process::{Command, Stdio};
use std::thread;

/// Where the program is run: its words name files here.
const FOLDER: &str = env!("CARGO_TARGET_TMPDIR");

/// What a run gave.
#[derive(Debug, PartialEq)]
pub struct Answer {
    pub status: i32,
    pub stdout: Vec<u8>,
    pub stderr: String,
}

impl Answer {
    pub fn text(&self) -> String {
        String::from_utf8(self.stdout.clone()).expect("text")
    }
}

/// The program, to be run in the folder of the tests' files.
pub fn program() -> Command {
    let mut command = Command::new(env!("CARGO_BIN_EXE_vault"));
    command.current_dir(FOLDER).stdin(Stdio::null());
    command.stdout(Stdio::piped()).stderr(Stdio::piped());
    command
}

/// Runs the program. A run that ends otherwise than with 0, 1 or 2, as by a panic, fails the test.
pub fn vault<W: AsRef<OsStr>>(words: impl IntoIterator<Item = W>, input: &[u8]) -> Answer {
    let words: Vec<W> = words.into_iter().collect();
    let mut command = program();
    command.args(&words).stdin(Stdio::piped());
    let mut child = command.spawn().expect("the program starts");
    let mut stdin = child.stdin.take().expect("standard input");
    let input = input.to_vec();
    // The program may end before it has read everything.
    let feeder = thread::spawn(move || drop(stdin.write_all(&input)));
    let output = child.wait_with_output().expect("the program ends");
    feeder.join().expect("the input is written");
    let answer = Answer {
        status: output.status.code().unwrap_or(-1),
        stdout: output.stdout,
        stderr: String::from_utf8_lossy(&output.stderr).into_owned(),
    };
    let shown: Vec<&OsStr> = words.iter().map(AsRef::as_ref).collect();
    assert!(
        (0..=2).contains(&answer.status) && !answer.stderr.contains("panicked"),
        "{shown:?}: {answer:?}"
    );
    // A command that fails says why, or, in JSON, its output does.
    let told = answer.stderr.starts_with("vault: ") || answer.stdout.starts_with(b"{");
    assert!(answer.status == 0 || told, "{shown:?}: {answer:?}");
    answer
}

/// Runs the program with words that one line has, spaces between, and no input.
pub fn line(words: &str) -> Answer {
    vault(words.split(' '), &[])
}

/// The exit status, and the number of the refusal if it is 1.
pub fn refusal(answer: &Answer) -> (i32, Option<u32>) {
    let after = answer.stderr.strip_prefix("vault: refused ");
    let number = after.and_then(|text| text.split(' ').next()?.parse().ok());
    (answer.status, number)
}

/// Stores a file in the folder of the tests' files, and gives its name there. Tests take different names.
pub fn file<'a>(name: &'a str, bytes: &[u8]) -> &'a str {
    fs::write(Path::new(FOLDER).join(name), bytes).expect("a file is written");
    name
}

/// The bytes of a file in that folder.
pub fn bytes(name: &str) -> Vec<u8> {
    fs::read(Path::new(FOLDER).join(name)).expect("a file is read")
}

/// Writes as `vault image` takes them: a record's number and its words.
pub fn writes(all: &[&[u16]]) -> Vec<u8> {
    let bytes =
        |write: &&[u16]| -> Vec<u8> { write.iter().flat_map(|x| x.to_le_bytes()).collect() };
    all.iter().flat_map(bytes).collect()
}

/// The image of a vault of zero records after some writes, stored as a file.
pub fn image_file<'a>(name: &'a str, k: u32, s: u32, all: &[&[u16]]) -> &'a str {
    let answer = vault(["image", &k.to_string(), &s.to_string()], &writes(all));
    assert_eq!(answer.status, 0, "{answer:?}");
    file(name, &answer.stdout)
}

/// Numbers of 4 bytes each, low byte first: words of an image, or pairs of a gap list.
pub fn numbers(all: &[u32]) -> Vec<u8> {
    all.iter().flat_map(|x| x.to_le_bytes()).collect()
}
