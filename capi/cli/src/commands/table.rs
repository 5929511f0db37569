//! `vault table`: the table of powers.
use super::Command;
use crate::arguments::{Arguments, Options};
use crate::failure::Failure;
use crate::files;
use vault_library::{calls, sizes};

pub const COMMAND: Command = Command {
    name: "table",
    line: "print the table of powers that card readers carry",
    help: "\
usage: vault table

Prints the table of powers that card readers carry: 2,048 numbers in decimal, one to a line.
Line I, counted from 0, is 3^32 to the power I, modulo 65537. The table is the same for every
rack: with N = 2^K records, the root W is line 1024 / N, W to the power J is line
J * 1024 / N for J from 0 to 2 N - 1, and its inverse line 2048 - J * 1024 / N for J from 1.

There are no arguments, and nothing is refused.
",
    options: Options::NONE,
    run,
};

fn run(arguments: Arguments) -> Result<(), Failure> {
    arguments.end()?;
    let mut powers = vec![0; sizes::POWERS];
    calls::powers(&mut powers)?;
    let lines = powers.iter().map(|power| format!("{power}\n"));
    files::print(lines.collect::<String>().as_bytes())
}
