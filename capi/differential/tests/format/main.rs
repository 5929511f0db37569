//! docs/FORMAT.md as it stands: its tables and examples are read out of it, and are what the library and reference/ give. So the document cannot come to
//! differ from the library unnoticed. A table or a sentence that is not found, a table that lost rows, and a row that is not understood are failures.
mod blanks;
mod calls;
mod document;
mod example;
mod explanations;
mod forms;
mod halves;
mod image;
mod levels;
mod numbers;
mod places;
mod powers;
mod racklist;
mod struck;
mod struck_words;
mod table;
mod taking_back;
mod two_examples;
mod two_readings;
mod two_tables;
mod variations;
