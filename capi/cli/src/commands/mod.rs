//! The subcommands, one file each.
/// What the helps of recover and explain say of the arguments that `rack::given` reads, and of the keys that `rack::verdict` prints.
macro_rules! given_help {
    () => {
        "  K S C   the plate's numbers: 2^K records of S words, C writes since the full shelf was
          last built
  IMAGE   a file, as 'vault image' writes it; what it holds in the gaps does not matter
  GAPS    a gap list, as 'vault gaps' writes it; '-' or no argument: there are no gaps
  --and   what follows is another reading of the same rack, its IMAGE and its GAPS
  --json  print one line of JSON instead, whether taken or refused, with these keys:
            number   0, or the number in the table of refusals
            name     \"taken\", or the name in that table
            shelf    the shelf at fault, \"C\" or a level as \"0\"; null if none is named
"
    };
}

mod decode;
mod demo;
mod explain;
mod gaps;
mod image;
mod list;
mod recover;
mod table;

use crate::arguments::{usage, Arguments, Options};
use crate::failure::Failure;
use crate::files;
use std::ffi::OsString;

struct Command {
    name: &'static str,
    /// What it does, in a line.
    line: &'static str,
    help: &'static str,
    options: Options,
    run: fn(Arguments) -> Result<(), Failure>,
}

const COMMANDS: [&Command; 8] = [
    &demo::COMMAND,
    &image::COMMAND,
    &gaps::COMMAND,
    &recover::COMMAND,
    &explain::COMMAND,
    &decode::COMMAND,
    &list::COMMAND,
    &table::COMMAND,
];

/// Runs the command that the words name.
pub fn run(mut words: Vec<OsString>) -> Result<(), Failure> {
    if words.is_empty() {
        return usage(format!("a command is needed\n\n{}", overview().trim_end()));
    }
    let name = words.remove(0);
    if is_help(&name) {
        return files::print(overview().as_bytes());
    }
    let Some(command) = COMMANDS.iter().find(|command| name == command.name) else {
        return usage(format!(
            "there is no command {name:?}\n\n{}",
            overview().trim_end()
        ));
    };
    if words.iter().take_while(|word| *word != "--").any(is_help) {
        return files::print(command.help.as_bytes());
    }
    let run = |arguments| (command.run)(arguments);
    Arguments::new(words, &command.options)
        .and_then(run)
        .map_err(|failure| match failure {
            Failure::Usage(text) => {
                Failure::Usage(format!("{text} (see: vault {} --help)", command.name))
            }
            other => other,
        })
}

fn is_help(word: &OsString) -> bool {
    word == "--help" || word == "-h"
}

fn overview() -> String {
    let mut text = String::from(
        "vault: records on a rack that any half of each shelf brings back\n\n\
         usage: vault COMMAND ..., vault COMMAND --help\n\n",
    );
    for command in COMMANDS {
        text += &format!("  {:<8} {}\n", command.name, command.line);
    }
    text + "\nExit status: 0 taken, 1 refused, 2 bad usage or a file that cannot be read.\n"
}
