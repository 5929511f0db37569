//! `vault demo`: a small rack is written, is sent a blank sheet and one for the wrong record, has a record struck, loses half of every shelf, is brought back,
//! loses one position too many, and is brought back with a second reading of it.
mod rack;
mod sheets;

use super::explain::{shortfalls, source, SOURCE};
use super::recover::{recovered, refused};
use super::Command;
use crate::arguments::{number, Arguments, Options};
use crate::failure::Failure;
use crate::files;
use crate::pair::Pair;
use crate::rack::{shelf_name, STRUCK};
use rack::{holds, Rack};
use random::Random;
use sheets::{MISKEYED, OPENED, TO_STRIKE, UNPLUGGED, WRITTEN};
use std::time::{SystemTime, UNIX_EPOCH};
use vault_library::{stripes, Explanation, Header, Origin, Record, Records, Vault};

pub const COMMAND: Command = Command {
    name: "demo",
    line: "lose half of a small rack at random, and bring its records back",
    help: "\
usage: vault demo [--seed N]

Shows the vault at work on data of its own: writes the sheets of a pressing, draws the rack,
has a blank sheet turned away, takes back one that was keyed to the wrong record, strikes
another, loses half of every shelf at random, brings all records back and says where each
sheet came from, then loses one position too many and says what is missing, and brings all
back with the reading of another card reader. No file is read or written.

  --seed N  lose the same positions as the run that printed this seed; without it, each run
            loses others
",
    options: Options {
        flags: &[],
        values: &["--seed"],
        part: None,
    },
    run,
};

const K: u32 = 4;
const S: u32 = 3;

const INTRODUCTION: &str = "\
After each step a press writes a sheet: the step, its pressure in mbar, the litres drawn.
This vault keeps 16 sheets. It was opened with yesterday's 16; today 13 were written over
them: steps 1 to 12 to records 0 to 11, then step 5 again, because its litres were wrong.
";

fn run(arguments: Arguments) -> Result<(), Failure> {
    let seed = match arguments.value("--seed") {
        Some(word) => number("--seed", word)?,
        None => any_seed(),
    };
    arguments.end()?;
    files::print(story(seed)?.as_bytes())
}

/// A seed that is another one at each run, short enough to type.
fn any_seed() -> u32 {
    let time = SystemTime::now().duration_since(UNIX_EPOCH);
    time.map_or(0, |time| time.subsec_micros())
}

/// What each record was last written with, or that it was struck then.
type Written = [Record<'static>; OPENED.len()];

fn story(seed: u32) -> Result<String, Failure> {
    let mut random = Random::new(u64::from(seed));
    let (mut vault, mut written) = pressing()?;
    let mut text = INTRODUCTION.to_owned();
    text += &writing(&mut vault, &mut written)?;

    let header = vault.header();
    let mut rack = Rack::new(header, vault.image()?);
    lose_halves(header, &mut rack, &mut random);
    text += "\n5. THE LOSS. Half of every shelf is lost, picked at random ";
    text += &format!("(seed {seed}).\n\n");
    let Explanation { counts, origins } = rack.explained()?;
    text += &rack.picture(&counts).rack();

    let refused = |fault| refused(header, fault);
    let records = recovered(header, rack.reading(), None).map_err(refused)?;
    text += "\n6. THE RECOVERY. All sheets, from the halves that are left, and where each came from.\n\n";
    text += &comparison(header, &written, &records, &origins.map_err(refused)?);

    text += "\n7. ONE POSITION MORE. ";
    text += &one_more(header, &mut rack, &mut random)?;

    let mut other = Rack::new(header, vault.image()?);
    lose_halves(header, &mut other, &mut random);
    text += "\n8. ANOTHER READER. The rack is read once more, and half of every shelf is lost there too.\n\n";
    text += &both(header, [&rack, &other], &written)?;
    text += "\nThe same again: vault demo --seed ";
    text += &format!("{seed}. With your own files: vault --help.\n");
    Ok(text)
}

/// Draws the rack before anything of it is lost, and tells what is done to it then.
fn writing(vault: &mut Vault, written: &mut Written) -> Result<String, Failure> {
    let rack = Rack::new(vault.header(), vault.image()?);
    let mut text =
        "\n1. THE RACK. A shelf spreads the sheets it holds over all of its positions.\n\n"
            .to_owned();
    text += &rack.picture(&rack.explained()?.counts).rack();
    text += "\n2. THE PROBE. ";
    text += &unplugged(vault)?;
    text += "\n3. THE WRONG RECORD. ";
    text += &wrong_record(vault)?;
    text += "\n4. THE STRIKE. ";
    text += &strike(vault, written)?;
    Ok(text)
}

/// The vault after the two days' pressings, and the sheet that each record was last written with.
fn pressing() -> Result<(Vault, Written), Failure> {
    let mut vault = Vault::open(K, S, OPENED.concat())?;
    let mut written = OPENED.each_ref().map(|sheet| Record::Words(sheet));
    for (record, sheet) in &WRITTEN {
        vault.write(*record, sheet)?;
        written[*record as usize] = Record::Words(sheet);
    }
    Ok((vault, written))
}

/// Sends the vault the sheet of a press whose probe is unplugged, and tells what it says, and how much of the rack is as it was.
fn unplugged(vault: &mut Vault) -> Result<String, Failure> {
    let (record, sheet) = UNPLUGGED;
    let before = vault.image()?;
    let answer = vault.write(record, &sheet);
    let mut text = "It is unplugged, and the press sends a sheet of zeros ".to_owned();
    text += &format!("for record {record}.\n\n");
    text += &match answer {
        Ok(()) => "   The vault takes it.".into(),
        Err(refusal) => {
            let refusal = Failure::from(refusal);
            format!("   The vault turns it away. The write is\n   {refusal}")
        }
    };
    text += "\n\n";
    Ok(text + &unchanged(&before, &vault.image()?))
}

/// Keys a sheet to the wrong record and takes it back, and tells what the record holds meanwhile, and how much of the rack is as it was.
fn wrong_record(vault: &mut Vault) -> Result<String, Failure> {
    let (record, sheet) = MISKEYED;
    let before = vault.image()?;
    let (step, meant) = (sheet[0], UNPLUGGED.0);
    let mut text = format!("Step {step} is keyed to record {record}, not {meant}, ");
    text += "and taken back.\n\n";
    text += &heading_of_held();
    text += &held(vault, "before", record)?;
    vault.write(record, &sheet)?;
    text += &held(vault, "keyed", record)?;
    vault.take_back()?;
    text += &held(vault, "taken back", record)?;
    text.push('\n');
    Ok(text + &unchanged(&before, &vault.image()?))
}

/// Strikes a record, and tells what it holds then.
fn strike(vault: &mut Vault, written: &mut Written) -> Result<String, Failure> {
    let mut text =
        format!("Yesterday's last step had no pressure: record {TO_STRIKE} is struck.\n\n");
    text += &heading_of_held();
    text += &held(vault, "before", TO_STRIKE)?;
    vault.strike(TO_STRIKE)?;
    written[TO_STRIKE as usize] = Record::Struck;
    Ok(text + &held(vault, "struck", TO_STRIKE)?)
}

/// The heading over [`held`].
fn heading_of_held() -> String {
    format!("   {:<13}record   {NAMES}   writes today\n", "")
}

/// A line for what a record holds now.
fn held(vault: &Vault, when: &str, record: u32) -> Result<String, Failure> {
    let (sheet, writes) = (columns(vault.read(record)?), vault.header().c);
    Ok(format!(
        "   {when:<10}   {record:>6}   {sheet}   {writes:>6}\n"
    ))
}

/// How many bytes of a rack are as they were.
fn unchanged(before: &[u8], after: &[u8]) -> String {
    let same = before.iter().zip(after).filter(|pair| pair.0 == pair.1);
    let (same, all) = (same.count(), before.len());
    format!("   {same} of {all} bytes of the rack are as they were.\n")
}

/// Loses half of every shelf.
fn lose_halves(header: Header, rack: &mut Rack, random: &mut Random) {
    for stripe in header.stripes() {
        for _ in 0..stripes::positions(stripe) / 2 {
            rack.lose(stripe, random);
        }
    }
}

/// Loses a position of any shelf, and tells what recovery says, and what would help.
fn one_more(header: Header, rack: &mut Rack, random: &mut Random) -> Result<String, Failure> {
    let filled: Vec<u32> = header.stripes().collect();
    let stripe = *random.one(&filled);
    let position = rack.lose(stripe, random);
    let shelf = shelf_name(K, stripe);
    let mut text = format!("Position {position} of shelf {shelf} is lost too.\n\n");
    let counts = rack.explained()?.counts;
    text += &rack.picture(&counts).shelf(stripe);
    text += "\n   The vault does not guess. Recovery is\n   ";
    text += &match recovered(header, rack.reading(), None) {
        Ok(_) => "taken".into(),
        Err(fault) => refused(header, fault).to_string(),
    };
    text += "\n\n";
    Ok(text + &shortfalls(header, &counts))
}

/// Draws two readings of the rack, and tells how many records come back from both.
fn both(header: Header, racks: [&Rack; 2], written: &Written) -> Result<String, Failure> {
    let [first, second] = racks.map(Rack::reading);
    let text = Pair::new(header, [first, second])?.picture(holds);
    let records = recovered(header, first, Some(second)).map_err(|fault| refused(header, fault))?;
    let rule =
        "Each shelf is taken from the reading that has more of it, the first if they are as many.";
    let records = Records::new(header, &records);
    Ok(text + &format!("\n   {rule}\n") + &as_written(written, records))
}

/// The heading over [`columns`].
const NAMES: &str = "step   mbar  litres";

/// The words of a sheet, or that it is struck.
fn columns(record: Record) -> String {
    let words = match record {
        Record::Words(sheet) => format!("{:>4} {:>6} {:>7}", sheet[0], sheet[1], sheet[2]),
        Record::Struck => STRUCK.into(),
    };
    format!("{words:<width$}", width = NAMES.len())
}

/// A line for each record: what was written to it last, what came back, and from where.
fn comparison(header: Header, written: &Written, recovered: &[u32], origins: &[Origin]) -> String {
    let mut text = format!(
        "   {:<21}{:<24}{:<22}from\n",
        "", "written last", "recovered"
    );
    text += &format!("   record   day         {NAMES}     {NAMES}   {SOURCE}\n");
    let records = Records::new(header, recovered);
    let all = written.iter().zip(records.iter()).zip(origins);
    for (number, ((&sheet, back), &origin)) in (0..).zip(all) {
        let today = number == TO_STRIKE || WRITTEN.iter().any(|write| write.0 == number);
        let day = if today { "today" } else { "yesterday" };
        let verdict = if back == sheet { "same" } else { "DIFFERENT" };
        let (sheet, back) = (columns(sheet), columns(back));
        let from = source(header, origin);
        text += &format!("   {number:>6}   {day:<9}   {sheet}     {back}   {from}   {verdict}\n");
    }
    text + "\n" + &as_written(written, records)
}

/// How many records came back as they were last written.
fn as_written(written: &Written, recovered: Records) -> String {
    let pairs = written.iter().copied().zip(recovered.iter());
    let same = pairs.filter(|(sheet, back)| sheet == back).count();
    let all = written.len();
    format!("   {same} of {all} records are as they were last written.\n")
}
