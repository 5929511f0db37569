//! The table of refusals of docs/FORMAT.md, in rising number.

#[derive(Clone, Copy, Debug, PartialEq)]
pub enum Refusal {
    Header = 1,
    Length,
    Erasures,
    Record,
    DataWord,
    Stripe,
    TooFew,
    OutOfField,
    Inconsistent,
    NotARecord,
    Blank,
    RoundStart,
    ReadingsDiffer,
    Struck,
}

/// What holds, or the refusal. Calls make their tests in rising number, but for 12, which comes before 8 to 10, and 13, which comes right after 3.
pub fn test(holds: bool, otherwise: Refusal) -> Result<(), Refusal> {
    if holds {
        Ok(())
    } else {
        Err(otherwise)
    }
}

/// The number of the table; 0 where a call is taken.
pub fn number<T>(answer: &Result<T, Refusal>) -> u32 {
    match answer {
        Ok(_) => 0,
        Err(refusal) => *refusal as u32,
    }
}
