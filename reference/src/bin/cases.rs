//! `cases FOLDER` writes into a folder what the program `test_cases` reads, `stdin`, and what it has to print, `stdout`.
use reference::cases::cases;
use std::{env, fs, io, path::Path};

fn main() -> io::Result<()> {
    let folder = env::args_os().nth(1).expect("a folder");
    let (input, printed) = cases();
    fs::write(Path::new(&folder).join("stdin"), input)?;
    fs::write(Path::new(&folder).join("stdout"), printed)
}
