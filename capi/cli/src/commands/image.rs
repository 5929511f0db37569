//! `vault image`: the image that some writes leave.
use super::Command;
use crate::arguments::{number, usage, Arguments, Options};
use crate::failure::Failure;
use crate::files;
use crate::rack::STRUCK;
use std::ffi::OsStr;
use std::fmt;
use std::io::{self, BufRead, Read};
use vault_library::{sizes, Refusal, Vault};

pub const COMMAND: Command = Command {
    name: "image",
    line: "make a rack's image from a list of writes",
    help: "\
usage: vault image K S < WRITES > IMAGE
       vault image K S --text < LINES > IMAGE

Opens a vault of 2^K records of S words, all zeros, does the writes that standard input
holds, and writes the image of its rack to standard output. The plate's numbers go to
standard error as a line 'plate K S C'; recover, explain, decode and list ask for them.

  K       1 to 10
  S       1 to 128
  WRITES  any number of writes, each 2 bytes for the record's number, then 2 bytes for each
          of the S words, low byte first: racklist's input without its first two bytes,
          which K and S stand for
  --text  standard input has a line for each write instead: the record's number and the S
          words, in decimal, with spaces between, as recover prints them; empty lines are
          passed over. A line 'strike N' strikes record N: its sheet counts no more, and
          recover prints 'N struck', until the record is written again. A strike is a write
          of the round, and a record that is struck may be struck again. A line 'back' takes
          back the last write of the round, or the last strike: the rack is then as if it had
          never been made. Several take back as many, at most to the round's start; the write
          that ends a round, after which C is 0, cannot be taken back

A sheet whose S words are all 0 is blank: it comes from a press whose probe is unplugged, and
the vault refuses it. A record that no write names is all zeros: of the lines that recover
printed, leave those out that have zeros alone, and give 'strike N' in place of 'N struck'.

Refused with exit status 1: 1 (plate), 2 (length), 4 (record), 5 (data word), 11 (blank),
12 (round start). What is refused stops the command, and no image is written. Standard error
names a write's place among the writes, counted from 0, strikes and those taken back too, and
with --text its line, counted from 1 as editors do, empty lines too:
'refused 11 (blank) at write 1, line 3'. Of a 'back' that finds no write to take back it
names the line: 'refused 12 (round start) at line 3'. Writes that end inside a write are
refused with 2.
",
    options: Options {
        flags: &["--text"],
        values: &[],
        part: None,
    },
    run,
};

/// The longest line of text: far longer than the numbers of a write.
const LINE: u64 = 1 << 16;

/// The line that takes a write back.
const BACK: &str = "back";

/// The word before the number of the record that a line strikes.
const STRIKE: &str = "strike";

/// What the vault is to do next.
enum Event {
    /// A write as it was read: the record's number and its words, which may be too few or too many.
    Write(u32, Vec<u32>),
    /// The record of this number is struck.
    Strike(u32),
    /// The last write or strike of the round is taken back.
    Back,
}

/// Where an event stands in the input: the number that a write or strike has among all of these, from 0; and in text its line, from 1, where empty lines count,
/// so that an editor finds it.
#[derive(Default)]
struct Place {
    write: u64,
    line: Option<u64>,
}

impl Place {
    /// The place of an event. A taking-back is no write, and has its line alone.
    fn of(&self, event: &Event) -> String {
        match (event, self.line) {
            (Event::Back, Some(line)) => format!("line {line}"),
            _ => self.to_string(),
        }
    }
}

impl fmt::Display for Place {
    fn fmt(&self, f: &mut fmt::Formatter) -> fmt::Result {
        write!(f, "write {}", self.write)?;
        match self.line {
            Some(line) => write!(f, ", line {line}"),
            None => Ok(()),
        }
    }
}

fn run(mut arguments: Arguments) -> Result<(), Failure> {
    let (k, s) = (arguments.number("K")?, arguments.number("S")?);
    let text = arguments.flag("--text");
    arguments.end()?;
    files::not_to_terminal("the image")?;
    let mut vault = Vault::open(k, s, vec![0; sizes::raw(k, s)])?;
    let mut input = io::stdin().lock();
    let mut place = Place::default();
    loop {
        let event = if text {
            from_text(&mut input, &mut place)?
        } else {
            from_bytes(&mut input, s)?
        };
        let Some(event) = event else { break };
        apply(&event, &mut vault)
            .map_err(|refusal| Failure::Refused(refusal, format!(" at {}", place.of(&event))))?;
        place.write += u64::from(!matches!(event, Event::Back));
    }
    let header = vault.header();
    files::print(&vault.image()?)?;
    files::say(&format!("plate {} {} {}", header.k, header.s, header.c));
    Ok(())
}

/// Does what the event asks for.
fn apply(event: &Event, vault: &mut Vault) -> Result<(), Refusal> {
    match event {
        Event::Write(record, block) => vault.write(*record, block),
        Event::Strike(record) => vault.strike(*record),
        Event::Back => vault.take_back(),
    }
}

/// The next write of the input. Of one whose bytes run out, what is there: it has too few words, and the vault refuses it.
fn from_bytes(input: &mut impl Read, s: u32) -> Result<Option<Event>, Failure> {
    let mut bytes = Vec::new();
    let all = 2 * (u64::from(s) + 1);
    let count = input
        .take(all)
        .read_to_end(&mut bytes)
        .map_err(cannot_read)?;
    let mut words = bytes
        .chunks_exact(2)
        .map(|pair| u32::from(pair[0]) | u32::from(pair[1]) << 8);
    let record = words.next().unwrap_or(0);
    Ok((count > 0).then(|| Event::Write(record, words.collect())))
}

/// The event in the next line that is not empty. Counts the lines.
fn from_text(input: &mut impl BufRead, place: &mut Place) -> Result<Option<Event>, Failure> {
    loop {
        let mut line = Vec::new();
        let count = input
            .take(LINE)
            .read_until(b'\n', &mut line)
            .map_err(cannot_read)?;
        *place.line.get_or_insert(0) += 1;
        if count as u64 == LINE {
            return usage(format!("{place}, is too long"));
        }
        let text = String::from_utf8_lossy(&line);
        let words: Vec<&str> = text.split_ascii_whitespace().collect();
        match words[..] {
            [] if count == 0 => return Ok(None),
            [] => {}
            [first, ref others @ ..] => return event(first, others, place).map(Some),
        }
    }
}

/// The event that a line's words are.
fn event(first: &str, others: &[&str], place: &Place) -> Result<Event, Failure> {
    match (first, others) {
        (BACK, []) => Ok(Event::Back),
        (BACK, _) => {
            let at = place.of(&Event::Back);
            usage(format!("{at}: '{BACK}' stands alone on its line"))
        }
        (STRIKE, [record]) => Ok(Event::Strike(numbered(record, place)?)),
        (STRIKE, _) => usage(format!(
            "{place}: '{STRIKE}' takes the number of one record, as in '{STRIKE} 3'"
        )),
        (_, [STRUCK]) => usage(format!(
            "{place}: a record is struck by a line '{STRIKE} N'"
        )),
        _ => {
            let block = others.iter().map(|word| numbered(word, place));
            Ok(Event::Write(
                numbered(first, place)?,
                block.collect::<Result<_, _>>()?,
            ))
        }
    }
}

/// A number of a line.
fn numbered(word: &str, place: &Place) -> Result<u32, Failure> {
    number(&format!("a number of {place},"), OsStr::new(word))
}

fn cannot_read(error: io::Error) -> Failure {
    Failure::File(format!("cannot read standard input: {error}"))
}
