//! The program par2, where it is installed: 1,024 blocks of the same data and 1,024 more, half of all lost. It runs on one core, as the library does.
use crate::measure::children_time;
use random::Random;
use std::path::{Path, PathBuf};
use std::process::{Command, Stdio};
use std::time::Duration;
use std::{env, fs, io, process};

/// The bytes of a block: two for each of 128 words.
const BLOCK: usize = 256;
const BLOCKS: usize = 1024;

pub struct Times {
    pub create: Duration,
    pub repair: Duration,
}

/// Whether par2 can be run.
pub fn installed() -> bool {
    Command::new("par2")
        .arg("--version")
        .stdout(Stdio::null())
        .stderr(Stdio::null())
        .status()
        .is_ok()
}

fn par2(folder: &Path, words: &[&str]) -> io::Result<Duration> {
    let start = children_time();
    let output = Command::new("par2")
        .args(words)
        .current_dir(folder)
        .env("OMP_NUM_THREADS", "1")
        .output()?;
    let time = children_time() - start;
    if output.status.success() {
        return Ok(time);
    }
    let printed = String::from_utf8_lossy(&output.stdout).into_owned();
    Err(io::Error::other(format!("par2 {words:?}: {printed}")))
}

/// Creates 1,024 recovery blocks in two files, loses one of these and half of the data's blocks, and repairs.
fn run(folder: &Path, data: &[u8]) -> io::Result<Times> {
    assert_eq!(data.len(), BLOCK * BLOCKS);
    let file = folder.join("records");
    fs::write(&file, data)?;
    let size = format!("-s{BLOCK}");
    let count = format!("-c{BLOCKS}");
    let create = par2(
        folder,
        &["create", "-q", "-q", &size, &count, "-u", "-n2", "records"],
    )?;
    let volumes = fs::read_dir(folder)?.collect::<io::Result<Vec<_>>>()?;
    let volume = volumes.iter().map(fs::DirEntry::path).find(|path| {
        let name = path.file_name().unwrap_or_default().to_string_lossy();
        name.contains(".vol")
    });
    fs::remove_file(volume.ok_or_else(|| io::Error::other("par2 made no volume"))?)?;
    let mut lost = data.to_vec();
    for i in Random::new(1).some(BLOCKS, BLOCKS / 2) {
        lost[i * BLOCK..(i + 1) * BLOCK].fill(0xff);
    }
    fs::write(&file, lost)?;
    let repair = par2(folder, &["repair", "-q", "-q", "records.par2"])?;
    if fs::read(&file)? != data {
        return Err(io::Error::other("par2 repaired to something else"));
    }
    Ok(Times { create, repair })
}

/// The times of one run in a folder of its own.
pub fn times(data: &[u8]) -> io::Result<Times> {
    let folder: PathBuf = env::temp_dir().join(format!("bench-par2-{}", process::id()));
    fs::create_dir_all(&folder)?;
    let times = run(&folder, data);
    fs::remove_dir_all(&folder)?;
    times
}
