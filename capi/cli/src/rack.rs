//! What several commands read or print: the header's numbers, images, gap lists, shelves, verdicts, and lines of words.
use crate::arguments::{number, usage, Arguments, Options};
use crate::failure::Failure;
use crate::files;
use std::ffi::{OsStr, OsString};
use std::fmt::{Display, Write};
use vault_library::{sizes, Fault, Header, Reading, Record};

/// The arguments K, S and C.
pub fn header(arguments: &mut Arguments) -> Result<Header, Failure> {
    Ok(Header {
        k: arguments.number("K")?,
        s: arguments.number("S")?,
        c: arguments.number("C")?,
    })
}

/// An image and its gap list, as files hold them.
pub struct Stored {
    pub image: Vec<u8>,
    pub gaps: Vec<u8>,
}

impl Stored {
    pub fn reading(&self) -> Reading<'_> {
        Reading {
            image: &self.image,
            erasures: &self.gaps,
        }
    }
}

/// What a rack's records are to come back from, one reading or two, and whether the answer is to be JSON.
pub struct Given {
    pub header: Header,
    pub first: Stored,
    pub second: Option<Stored>,
    pub json: bool,
}

/// The options that [`given`] reads.
pub const GIVEN: Options = Options {
    flags: &["--json"],
    values: &[],
    part: Some("--and"),
};

/// The arguments K, S, C, IMAGE and, if they are there, GAPS, --and with another IMAGE and GAPS, and --json, and no more.
pub fn given(mut arguments: Arguments) -> Result<Given, Failure> {
    let json = arguments.flag("--json");
    let part = arguments.part();
    let header = header(&mut arguments)?;
    let first = paths(arguments, "IMAGE")?;
    let second = part.map(|part| paths(part, "IMAGE after --and"));
    let second = second.transpose()?;
    Ok(Given {
        header,
        first: stored(header, first)?,
        second: second.map(|paths| stored(header, paths)).transpose()?,
        json,
    })
}

/// Where an image, which is known as `name`, and its gap list are.
type Paths = (OsString, Option<OsString>);

fn paths(mut arguments: Arguments, name: &str) -> Result<Paths, Failure> {
    let paths = (arguments.needed(name)?, arguments.next());
    arguments.end()?;
    Ok(paths)
}

fn stored(header: Header, (path, list): Paths) -> Result<Stored, Failure> {
    Ok(Stored {
        image: image(header, &path)?,
        gaps: gaps(header, list)?,
    })
}

/// The image in a file.
pub fn image(header: Header, path: &OsStr) -> Result<Vec<u8>, Failure> {
    files::read(path, sizes::image(header.k, header.s))
}

/// The gap list in a file, or none.
pub fn gaps(header: Header, path: Option<OsString>) -> Result<Vec<u8>, Failure> {
    match path {
        Some(path) if path.is_empty() => usage("GAPS is empty".into()),
        Some(path) if path != "-" => files::read(&path, longest_gaps(header)),
        _ => Ok(Vec::new()),
    }
}

/// A good gap list has a byte between each gap and the next, so it has at most this many bytes.
fn longest_gaps(header: Header) -> usize {
    8 * sizes::image(header.k, header.s).div_ceil(2)
}

/// A shelf: C, or a number.
pub fn shelf(k: u32, word: &OsStr) -> Result<u32, Failure> {
    if word == "C" {
        Ok(k)
    } else {
        number("SHELF", word)
            .or_else(|_| usage(format!("there is no shelf {word:?}: it is C or a level")))
    }
}

/// What a shelf is called: C is the full shelf.
pub fn shelf_name(k: u32, stripe: u32) -> String {
    if stripe == k {
        "C".into()
    } else {
        stripe.to_string()
    }
}

/// Whether a recovery is taken, as keys of JSON: number, name and shelf. Names and shelves hold nothing that JSON would have escaped.
pub fn verdict(header: Header, fault: Option<&Fault>) -> String {
    let (number, name, stripe) = match fault {
        None => (0, "taken", None),
        Some(fault) => (fault.refusal.number(), fault.refusal.name(), fault.stripe),
    };
    let shelf = stripe.map_or("null".into(), |stripe| {
        format!("\"{}\"", shelf_name(header.k, stripe))
    });
    format!("\"number\":{number},\"name\":\"{name}\",\"shelf\":{shelf}")
}

/// Adds a line: what it is of, and words, one space between.
pub fn add_line(text: &mut String, of: impl Display, words: impl IntoIterator<Item = u32>) {
    let _ = write!(text, "{of}");
    for word in words {
        let _ = write!(text, " {word}");
    }
    text.push('\n');
}

/// What stands in the place of a struck record's words.
pub const STRUCK: &str = "struck";

/// Adds the line of a record: its number, and its words, or that it is struck.
pub fn add_record(text: &mut String, number: impl Display, record: Record) {
    match record {
        Record::Words(words) => add_line(text, number, words.iter().copied()),
        Record::Struck => {
            let _ = writeln!(text, "{number} {STRUCK}");
        }
    }
}
