//! `vault explain --and`: what two readings of a rack have, and what recovery from both says.
use super::{failed, holds, origins_list, plural, shelf_key, shortfall, sources};
use crate::commands::recover::{recovered, refused};
use crate::failure::Failure;
use crate::pair::{number, Pair, Shelf};
use crate::rack::shelf_name;
use crate::{files, rack};
use vault_library::{Fault, Header, Reading, Refusal};

/// The positions of a line that lists them.
const LINE: usize = 8;

pub fn print_explanation(
    header: Header,
    readings: [Reading; 2],
    json: bool,
) -> Result<(), Failure> {
    let [first, second] = readings;
    let fault = recovered(header, first, Some(second)).err();
    let pair = match fault {
        // Nothing was counted.
        Some(fault) if fault.stripe.is_none() && fault.refusal != Refusal::ReadingsDiffer => None,
        _ => Some(Pair::new(header, readings)?),
    };
    if json {
        files::print(as_json(header, fault, pair.as_ref()).as_bytes())?;
        return fault.map_or(Ok(()), |_| Err(Failure::Told));
    }
    if let Some(pair) = pair {
        let text = pair.picture(holds) + &answer(header, fault, &pair);
        files::print(text.as_bytes())?;
    }
    fault.map_or(Ok(()), |fault| Err(refused(header, fault)))
}

/// What recovery says, and what the picture does not.
fn answer(header: Header, fault: Option<Fault>, pair: &Pair) -> String {
    let Some(fault) = fault else {
        return sources(header, &pair.origins());
    };
    let lines = pair.shelves.iter().map(|shelf| match shelf.from() {
        None => difference(header, shelf),
        Some(which) => {
            let place = format!(" in reading {}", number(which));
            shortfall(header, &shelf.counts[which as usize], &place)
        }
    });
    failed(header, fault) + &lines.collect::<String>()
}

/// The positions of a shelf that differ, as `vault gaps` takes them.
fn difference(header: Header, shelf: &Shelf) -> String {
    let differing: Vec<usize> = shelf.differing().collect();
    if differing.is_empty() {
        return String::new();
    }
    let (count, plural) = (differing.len(), plural(differing.len()));
    let name = shelf_name(header.k, shelf.stripe);
    let mut text = format!("   Shelf {name} differs at {count} position{plural}:\n");
    // Positions that follow each other are one run.
    let runs = differing.chunk_by(|one, next| one + 1 == *next);
    let runs: Vec<String> = runs
        .map(|run| match run {
            [first, .., last] => format!("{name}:{first}-{last}"),
            _ => format!("{name}:{}", run[0]),
        })
        .collect();
    for line in runs.chunks(LINE) {
        text += &format!("      {}\n", line.join(" "));
    }
    text
}

/// The answer as a line of JSON.
fn as_json(header: Header, fault: Option<Fault>, pair: Option<&Pair>) -> String {
    let verdict = rack::verdict(header, fault.as_ref());
    let shelves = pair.map(|pair| &pair.shelves[..]).unwrap_or_default();
    let counts: Vec<String> = shelves.iter().map(|shelf| count(header, shelf)).collect();
    let counts = counts.join(",");
    let origins = pair.map(Pair::origins).unwrap_or_default();
    let origins = origins_list(header, &origins);
    format!("{{{verdict},\"counts\":[{counts}],\"origins\":{origins}}}\n")
}

/// What is counted of a shelf, as JSON.
fn count(header: Header, shelf: &Shelf) -> String {
    let key = shelf_key(header, shelf.stripe);
    let [one, other] = shelf.counts;
    let (left, shortfall) = ([one.left, other.left], [one.shortfall, other.shortfall]);
    let from = shelf
        .from()
        .map_or("null".into(), |which| number(which).to_string());
    let differ: Vec<usize> = shelf.differing().collect();
    let text = format!(
        "{{{key},\"left\":{left:?},\"needed\":{},\"shortfall\":{shortfall:?},\"from\":{from},\"differ\":{differ:?}}}",
        one.needed
    );
    text.replace(' ', "")
}
