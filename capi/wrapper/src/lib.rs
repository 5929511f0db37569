//! A safe wrapper of the record vault's static library (include/vault.h).
//!
//! The library tests all that it is given, lengths too, and is proved to answer as the specification says; nothing is tested
//! twice here. [`calls`] has the library's calls over slices that the caller owns, [`Vault`] a vault that owns its buffers,
//! [`Explanation`] what recovery finds in an image, [`Record`] what a record holds: words, or none, if it is struck.
//!
//! ```
//! use vault_library::{calls, erasures, sizes, stripes, Explanation, Origin, Reading, Record, Vault, Which};
//!
//! // Four records of one word, the second written twice.
//! let mut vault = Vault::open(2, 1, vec![0; sizes::raw(2, 1)])?;
//! vault.write(1, &[7])?;
//! vault.write(1, &[8])?;
//! assert_eq!(vault.read(1)?, Record::Words(&[8]));
//!
//! // Half of the full stripe is lost.
//! let header = vault.header();
//! let image = vault.image()?;
//! let lost = (0..4).map(|position| stripes::position(2, 1, 2, position));
//! let erasures = erasures::list(lost.collect());
//!
//! let mut records = vec![0; sizes::raw(2, 1)];
//! let mut scratch = vec![0; sizes::scratch(2, 1)];
//! calls::recover(header, &image, &erasures, &mut records, &mut scratch)?;
//! assert_eq!(records, [0, 8, 0, 0]);
//!
//! // Record 1 comes from write 1 of the round, which level 1 holds.
//! let origins = Explanation::new(header, &image, &erasures)?.origins?;
//! assert_eq!(origins[1], Origin::Level { stripe: 1, write: 1 });
//!
//! // In another card reader the full stripe is whole: it is decoded there.
//! let first = Reading { image: &image, erasures: &erasures };
//! let second = Reading { image: &image, erasures: &[] };
//! calls::recover_two(header, first, second, &mut records, &mut scratch)?;
//! assert_eq!(records, [0, 8, 0, 0]);
//! assert_eq!(calls::shelf_of_two(header, first, second, 2)?.of, Which::Second);
//!
//! // Write 1 is taken back, and record 1 is what it was before.
//! vault.take_back()?;
//! assert_eq!(vault.header().c, 1);
//! assert_eq!(vault.read(1)?, Record::Words(&[7]));
//!
//! // Record 1 is struck, which is a write of the round, too.
//! vault.strike(1)?;
//! assert_eq!(vault.header().c, 2);
//! assert_eq!(vault.read(1)?, Record::Struck);
//! # Ok::<(), Box<dyn std::error::Error>>(())
//! ```
pub mod calls;
pub mod erasures;
mod explanation;
mod header;
mod readings;
mod records;
mod refusal;
pub mod sizes;
pub mod stripes;
mod vault;

pub use explanation::{Count, Explanation, Origin};
pub use header::Header;
pub use readings::{Part, Reading, Which};
pub use records::{Record, Records, STRUCK_WORD};
pub use refusal::{Fault, Refusal};
pub use vault::Vault;
