//! Runs the program `vault`: what it prints and its exit status, which is 0 (taken), 1 (refused) or 2 (bad usage) for any words and files.
mod any_input;
mod blank;
mod commands;
mod program;
mod refusals;
mod striking;
mod taking_back;
mod two_readings;
mod usage;
