//! The table of refusals of the specification, docs/FORMAT.md.
use std::error::Error;
use std::fmt;

#[derive(Clone, Copy, Debug, PartialEq, Eq)]
#[repr(u32)]
pub enum Refusal {
    Header = vault_sys::VAULT_HEADER,
    Length = vault_sys::VAULT_LENGTH,
    Erasures = vault_sys::VAULT_GAP_LIST,
    Record = vault_sys::VAULT_RECORD,
    DataWord = vault_sys::VAULT_DATA_WORD,
    Stripe = vault_sys::VAULT_SHELF,
    TooFew = vault_sys::VAULT_TOO_FEW,
    OutOfField = vault_sys::VAULT_STRAY,
    Inconsistent = vault_sys::VAULT_DISCORD,
    NotARecord = vault_sys::VAULT_NO_SHEET,
    Blank = vault_sys::VAULT_BLANK,
    RoundStart = vault_sys::VAULT_ROUND_START,
    ReadingsDiffer = vault_sys::VAULT_READINGS_DIFFER,
    Struck = vault_sys::VAULT_STRUCK,
}

/// Each refusal, by rising number from 1, with the table's name and what it means.
const TABLE: [(Refusal, &str, &str); 14] = [
    (
        Refusal::Header,
        "plate",
        "k must be 1 to 10, s 1 to 128, and c 0 to 2^k - 1",
    ),
    (
        Refusal::Length,
        "length",
        "a buffer, a block or the image is not exactly as long as k and s make it",
    ),
    (
        Refusal::Erasures,
        "gap list",
        "it must be whole pairs of offset and length, no length 0, each pair inside the image and beginning beyond the end of \
         the one before it",
    ),
    (
        Refusal::Record,
        "record",
        "there are only 2^k records, numbered from 0",
    ),
    (
        Refusal::DataWord,
        "data word",
        "a data word is above 65535",
    ),
    (
        Refusal::Stripe,
        "shelf",
        "the shelf's number is above k, or its level is not filled",
    ),
    (
        Refusal::TooFew,
        "too few",
        "fewer than half of the shelf's positions survive",
    ),
    (
        Refusal::OutOfField,
        "stray",
        "a surviving word is above 65536, which no card can hold",
    ),
    (
        Refusal::Inconsistent,
        "discord",
        "the surviving words do not fit together: at least one of them was changed",
    ),
    (
        Refusal::NotARecord,
        "no sheet",
        "the surviving words fit together, but not as sheets of this vault",
    ),
    (
        Refusal::Blank,
        "blank",
        "each data word of the sheet is 0, as when the press's probe is unplugged",
    ),
    (
        Refusal::RoundStart,
        "round start",
        "this round has no write to take back",
    ),
    (
        Refusal::ReadingsDiffer,
        "readings differ",
        "a position that is whole in both readings has another word in each",
    ),
    (
        Refusal::Struck,
        "struck",
        "the record is struck, and has no words until it is written again",
    ),
];

impl Refusal {
    /// The number of the table.
    pub fn number(self) -> u32 {
        self as u32
    }

    /// The name that the table has.
    pub fn name(self) -> &'static str {
        TABLE[self as usize - 1].1
    }

    /// What it means, in one sentence.
    pub fn meaning(self) -> &'static str {
        TABLE[self as usize - 1].2
    }

    /// What a call's number says.
    pub(crate) fn test(number: u32) -> Result<(), Refusal> {
        match number {
            vault_sys::VAULT_TAKEN => Ok(()),
            // The contract of every call: any other number is one of the table.
            _ => Err(TABLE[number as usize - 1].0),
        }
    }
}

impl fmt::Display for Refusal {
    fn fmt(&self, f: &mut fmt::Formatter) -> fmt::Result {
        let (number, name, meaning) = (self.number(), self.name(), self.meaning());
        write!(f, "refused {number} ({name}): {meaning}")
    }
}

impl Error for Refusal {}

/// Why a recovery was refused, and the first stripe at fault where the refusal is a stripe's.
#[derive(Clone, Copy, Debug, PartialEq, Eq)]
pub struct Fault {
    pub refusal: Refusal,
    pub stripe: Option<u32>,
}

impl Fault {
    /// What the number and the stripe of a recovery say.
    pub(crate) fn test(number: u32, stripe: u32) -> Result<(), Fault> {
        Refusal::test(number).map_err(|refusal| Fault {
            refusal,
            stripe: Some(stripe).filter(|&stripe| stripe != vault_sys::VAULT_NO_SHELF),
        })
    }
}

impl fmt::Display for Fault {
    fn fmt(&self, f: &mut fmt::Formatter) -> fmt::Result {
        self.refusal.fmt(f)?;
        match self.stripe {
            Some(stripe) => write!(f, " (stripe {stripe})"),
            None => Ok(()),
        }
    }
}

impl Error for Fault {}

#[cfg(test)]
mod tests {
    use super::*;

    #[test]
    fn the_table_is_in_order() {
        for (row, number) in TABLE.iter().zip(1..) {
            assert_eq!(row.0.number(), number);
            assert_eq!(Refusal::test(number), Err(row.0));
        }
        assert_eq!(Refusal::test(0), Ok(()));
    }
}
