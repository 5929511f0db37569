//! `vault explain`: what is left of a rack, and why its records come back or do not.
mod two;

use super::recover::{place, refused};
use super::Command;
use crate::failure::Failure;
use crate::picture::Picture;
use crate::rack::{shelf_name, Given};
use crate::{files, rack};
use vault_library::{stripes, Count, Explanation, Fault, Header, Origin, Reading};

pub const COMMAND: Command = Command {
    name: "explain",
    line: "say why the records of a rack come back, or do not",
    help: concat!(
        "\
usage: vault explain K S C IMAGE [GAPS] [--and IMAGE [GAPS]] [--json]

Says what is left of a rack, and why its records come back or do not. It takes what recover
takes, and is refused as recover is.

First it draws the rack, a line for each shelf, the full shelf C first, then the levels down
to 0: what the shelf holds, a character for each position, how many positions are left, and
how many are needed. Shelf C holds all records as they were when the round began, a level
some writes of the round, numbered from 0; nothing is needed of an empty level. A line has
32 positions. A longer shelf goes on in the lines below, which begin with the number of
their first position.

If the records come back, it prints a line for each: its number, the shelf that its sheet
came from, and the number of the write, which is the last one to this record in the round; a
strike is a write. A record that was not written in the round came from shelf C, and its line
has no write.

If they do not, it prints the refusal's number and name with the first shelf at fault, and a
line for each shelf that has too few positions left: how many more would be enough.

With --and it draws two readings of the rack in one picture, with what recover says of both:

  #  a position that is whole in both readings, and the same
  !  one that is whole in both, and not the same: the readings differ
  1  one that is whole in the first reading alone
  2  one that is whole in the second reading alone
  .  one that is lost in both

A line has the positions left in either, the reading that the shelf is taken from, and how
many are needed there. If the readings differ, no shelf is taken from either, and for each
shelf the positions that are not the same are listed, as 'vault gaps' takes them: in the gap
list of the reading that has them wrong, they are lost there and differ no more.

",
        given_help!(),
        "            counts   the needed shelves, C first, then the levels downward, each as
                     {\"shelf\":\"C\",\"left\":3,\"needed\":4,\"shortfall\":1}; [] after 1 to 3
            origins  the 2^K records in order, each as {\"shelf\":\"0\",\"write\":2}, or as
                     {\"shelf\":\"C\",\"write\":null}; [] if refused
          With --and, left and shortfall are of both readings, as in \"left\":[3,5], and a
          shelf of counts has two keys more:
            from     the reading it is taken from, 1 or 2; null if the readings differ
            differ   the numbers of the positions that differ, in order

Refused with exit status 1: 1 (plate), 2 (length), 3 (gap list), which print nothing else,
13 (readings differ), and, naming the first shelf at fault, 7 (too few), 8 (stray),
9 (discord), 10 (no sheet).
"
    ),
    options: rack::GIVEN,
    run: |arguments| {
        let given = rack::given(arguments)?;
        let Given { header, json, .. } = given;
        let first = given.first.reading();
        match &given.second {
            None => print_explanation(header, first, json),
            Some(second) => two::print_explanation(header, [first, second.reading()], json),
        }
    },
};

fn print_explanation(header: Header, reading: Reading, json: bool) -> Result<(), Failure> {
    let Reading { image, erasures } = reading;
    let explanation = match Explanation::new(header, image, erasures) {
        // A line of JSON is printed also where nothing was counted.
        Err(refusal) if json => {
            let stripe = None;
            Explanation {
                counts: Vec::new(),
                origins: Err(Fault { refusal, stripe }),
            }
        }
        answer => answer?,
    };
    if json {
        files::print(as_json(header, &explanation).as_bytes())?;
        return explanation.origins.map(|_| ()).map_err(|_| Failure::Told);
    }
    let Explanation { counts, origins } = explanation;
    let mut text = Picture::new(header, erasures, &counts, holds).rack();
    text += &match &origins {
        Ok(origins) => sources(header, origins),
        Err(fault) => failed(header, *fault) + &shortfalls(header, &counts),
    };
    files::print(text.as_bytes())?;
    origins.map(|_| ()).map_err(|fault| refused(header, fault))
}

/// What a shelf holds: the round's writes, by their numbers, or all records of before.
fn holds(header: Header, stripe: u32) -> String {
    if stripe == header.k {
        return format!("all {} records", 1 << stripe);
    }
    let writes = header.writes(stripe);
    match writes.len() {
        1 => format!("write {}", writes.start),
        _ => format!("writes {} to {}", writes.start, writes.end - 1),
    }
}

/// A line for each record: the shelf and the write that it came from.
fn sources(header: Header, origins: &[Origin]) -> String {
    let mut text = format!(
        "\n   All {} records come back, each from its last write in the round, or from shelf C.\n\n",
        origins.len()
    );
    text += &format!("   record   {SOURCE}\n");
    for (record, &origin) in origins.iter().enumerate() {
        let line = format!("   {record:>6}   {}", source(header, origin));
        text += line.trim_end();
        text.push('\n');
    }
    text
}

/// The heading over [`source`].
pub const SOURCE: &str = "shelf   write";

/// The shelf and the write that a record came from, as two columns.
pub fn source(header: Header, origin: Origin) -> String {
    let (stripe, write) = match origin {
        Origin::Full => (header.k, String::new()),
        Origin::Level { stripe, write } => (stripe, write.to_string()),
    };
    format!("{:>5}   {write:>5}", shelf_name(header.k, stripe))
}

/// That the records do not come back, and why.
fn failed(header: Header, fault: Fault) -> String {
    let (number, name) = (fault.refusal.number(), fault.refusal.name());
    let place = place(header, fault);
    format!("\n   The records do not come back: {number} ({name}){place}.\n")
}

/// A line for each shelf that has too few positions left: how many more would be enough.
pub fn shortfalls(header: Header, counts: &[Count]) -> String {
    let lines = counts.iter().map(|count| shortfall(header, count, ""));
    lines.collect()
}

/// The line of a shelf, if it has too few positions left: how many more would be enough, and where.
fn shortfall(header: Header, count: &Count, place: &str) -> String {
    let more = count.shortfall;
    if more == 0 {
        return String::new();
    }
    let shelf = shelf_name(header.k, count.stripe);
    let plural = plural(more as usize);
    let lost = stripes::positions(count.stripe) - count.left as usize;
    format!("   Shelf {shelf} lacks {more} position{plural}{place}: any {more} of the {lost} lost ones would be enough.\n")
}

/// What the word for a number of things ends in.
fn plural(count: usize) -> &'static str {
    if count == 1 {
        ""
    } else {
        "s"
    }
}

/// The answer as a line of JSON.
fn as_json(header: Header, explanation: &Explanation) -> String {
    let Explanation { counts, origins } = explanation;
    let count = |count: &Count| {
        let (left, needed, shortfall) = (count.left, count.needed, count.shortfall);
        let shelf = shelf_key(header, count.stripe);
        format!("{{{shelf},\"left\":{left},\"needed\":{needed},\"shortfall\":{shortfall}}}")
    };
    let verdict = rack::verdict(header, origins.as_ref().err());
    let counts: Vec<String> = counts.iter().map(count).collect();
    let counts = counts.join(",");
    let origins = origins_list(header, origins.as_deref().unwrap_or_default());
    format!("{{{verdict},\"counts\":[{counts}],\"origins\":{origins}}}\n")
}

/// The shelf as a key of JSON.
fn shelf_key(header: Header, stripe: u32) -> String {
    format!("\"shelf\":\"{}\"", shelf_name(header.k, stripe))
}

/// Where each record comes from, as a list of JSON.
fn origins_list(header: Header, origins: &[Origin]) -> String {
    let shelf = |stripe| shelf_key(header, stripe);
    let origin = |origin: &Origin| match *origin {
        Origin::Full => format!("{{{},\"write\":null}}", shelf(header.k)),
        Origin::Level { stripe, write } => format!("{{{},\"write\":{write}}}", shelf(stripe)),
    };
    let origins: Vec<String> = origins.iter().map(origin).collect();
    format!("[{}]", origins.join(","))
}
