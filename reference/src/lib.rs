//! A second implementation of the record vault, written from the specification alone (docs/FORMAT.md): simple and slow. It makes the test cases
//! that the proved programs are held to.
pub mod by_reference;
pub mod calls;
pub mod cases;
pub mod decode;
pub mod erasures;
pub mod explanation;
pub mod field;
pub mod header;
pub mod image;
pub mod lent;
pub mod listing;
pub mod machine;
pub mod opening;
pub mod powers;
pub mod reading;
pub mod record;
pub mod recovery;
pub mod refusal;
pub mod script;
pub mod striking;
pub mod stripe;
pub mod stripe_cases;
pub mod taking_back;
pub mod two_readings;
pub mod writing;
