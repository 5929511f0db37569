//! The record vault on the command line: `vault --help`.
mod arguments;
mod commands;
mod failure;
mod files;
mod pair;
mod picture;
mod rack;

use std::process::ExitCode;

fn main() -> ExitCode {
    match commands::run(std::env::args_os().skip(1).collect()) {
        Ok(()) => ExitCode::SUCCESS,
        Err(failure) => failure.report(),
    }
}
