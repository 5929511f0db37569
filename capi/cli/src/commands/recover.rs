//! `vault recover`: all records, from what is left of a rack.
use super::Command;
use crate::failure::Failure;
use crate::rack::{Given, Stored};
use crate::{files, rack};
use vault_library::{calls, sizes, Fault, Header, Reading, Record, Records};

pub const COMMAND: Command = Command {
    name: "recover",
    line: "bring all records back from what is left of a rack",
    help: concat!(
        "\
usage: vault recover K S C IMAGE [GAPS] [--and IMAGE [GAPS]] [--json]

Prints all records of a vault, as they were last written: a line for each, its number and
its S words in decimal, one space between; if it was struck last, its number and 'struck'.
Half of each shelf may be lost.

With --and they come from two readings of the rack. First the two are compared: a position
that is whole in both has to be the same in both, or they are refused with 13, which names no
shelf; 'vault explain' then shows where they differ. Then each shelf is taken from the reading
that has more of its positions left, the first if they are as many; half of it may be lost
there. Positions of one shelf are never taken from both.

",
        given_help!(),
        "            records  the 2^K records in order, each a list of S numbers, or null if it
                     is struck; [] if refused
          as in {\"number\":7,\"name\":\"too few\",\"shelf\":\"C\",\"records\":[]}

Refused with exit status 1: 1 (plate), 2 (length), 3 (gap list), 13 (readings differ), and,
naming the first shelf at fault, 7 (too few), 8 (stray), 9 (discord), 10 (no sheet).
"
    ),
    options: rack::GIVEN,
    run: |arguments| print_records(rack::given(arguments)?),
};

fn print_records(given: Given) -> Result<(), Failure> {
    let header = given.header;
    let second = given.second.as_ref().map(Stored::reading);
    let answer = recovered(header, given.first.reading(), second);
    if given.json {
        files::print(as_json(header, &answer).as_bytes())?;
        return answer.map(|_| ()).map_err(|_| Failure::Told);
    }
    let records = answer.map_err(|fault| refused(header, fault))?;
    let mut text = String::new();
    for (number, record) in Records::new(header, &records).iter().enumerate() {
        rack::add_record(&mut text, number, record);
    }
    files::print(text.as_bytes())
}

/// The words of all records, from one reading or from two.
pub fn recovered(
    header: Header,
    first: Reading,
    second: Option<Reading>,
) -> Result<Vec<u32>, Fault> {
    let mut records = vec![0; sizes::raw(header.k, header.s)];
    let mut scratch = vec![0; sizes::scratch(header.k, header.s)];
    let (image, gaps) = (first.image, first.erasures);
    match second {
        None => calls::recover(header, image, gaps, &mut records, &mut scratch)?,
        Some(second) => calls::recover_two(header, first, second, &mut records, &mut scratch)?,
    }
    Ok(records)
}

/// The failure that a refused recovery is, with its shelf.
pub fn refused(header: Header, fault: Fault) -> Failure {
    Failure::Refused(fault.refusal, place(header, fault))
}

/// The shelf of a refused recovery, as text that stands after the refusal's name.
pub fn place(header: Header, fault: Fault) -> String {
    let on = |stripe| format!(" on shelf {}", rack::shelf_name(header.k, stripe));
    fault.stripe.map(on).unwrap_or_default()
}

/// The answer as a line of JSON.
fn as_json(header: Header, answer: &Result<Vec<u32>, Fault>) -> String {
    let verdict = rack::verdict(header, answer.as_ref().err());
    let records = answer.as_deref().unwrap_or_default();
    let values: Vec<String> = Records::new(header, records)
        .iter()
        .map(|record| match record {
            Record::Words(words) => format!("{words:?}").replace(' ', ""),
            Record::Struck => "null".into(),
        })
        .collect();
    let values = values.join(",");
    format!("{{{verdict},\"records\":[{values}]}}\n")
}
