//! Reading and writing of files and of the standard streams. Nothing here panics, whatever the other end does.
use crate::failure::Failure;
use std::ffi::OsStr;
use std::fs::{self, File};
use std::io::{self, ErrorKind, IsTerminal, Read, Write};

/// The bytes of a file. Of one that is longer than `most`, one byte more than that: enough to see that it is too long, and no file is too
/// large to read.
pub fn read(path: &OsStr, most: usize) -> Result<Vec<u8>, Failure> {
    let mut bytes = Vec::new();
    let file = File::open(path);
    file.and_then(|file| file.take(most as u64 + 1).read_to_end(&mut bytes))
        .map_err(|error| Failure::File(format!("cannot read {path:?}: {error}")))?;
    Ok(bytes)
}

/// Writes a file.
pub fn store(path: &OsStr, bytes: &[u8]) -> Result<(), Failure> {
    fs::write(path, bytes).map_err(|error| Failure::File(format!("cannot write {path:?}: {error}")))
}

/// Writes to standard output. A reader that has seen enough, as `head`, is no failure.
pub fn print(bytes: &[u8]) -> Result<(), Failure> {
    let mut out = io::stdout().lock();
    match out.write_all(bytes).and_then(|()| out.flush()) {
        Err(error) if error.kind() != ErrorKind::BrokenPipe => Err(Failure::File(format!(
            "cannot write to standard output: {error}"
        ))),
        _ => Ok(()),
    }
}

/// Bytes are for files and other programs.
pub fn not_to_terminal(what: &str) -> Result<(), Failure> {
    if io::stdout().is_terminal() {
        return Err(Failure::Usage(format!(
            "{what} is bytes, not text: send it to a file, as in '> FILE'"
        )));
    }
    Ok(())
}

/// Writes a line to standard error. Where that is closed too, nobody is left to tell.
pub fn say(line: &str) {
    let _ = writeln!(io::stderr(), "{line}");
}
