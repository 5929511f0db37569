//! Differential tests: each call is made of the library, across the C boundary, and of reference/, over equal buffers; answers and all buffers are then
//! compared, word by word. The calls are drawn from a seed, and the same at each run.
pub mod both;
mod by_library;
mod erasures;
mod faults;
pub mod files;
mod guarded;
mod origins;
pub mod run;
mod scenarios;
mod session;
mod tally;
mod writes;
