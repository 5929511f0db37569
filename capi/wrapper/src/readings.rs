//! Two readings of one image, as worn cards give them in two card readers: what [`recover_two`](crate::calls::recover_two) and
//! [`shelf_of_two`](crate::calls::shelf_of_two) are lent, and what the second of these gives.

/// An image, and the erasure list that goes with it.
#[derive(Clone, Copy, Debug, PartialEq, Eq)]
pub struct Reading<'a> {
    pub image: &'a [u8],
    pub erasures: &'a [u8],
}

/// One of two readings.
#[derive(Clone, Copy, Debug, PartialEq, Eq)]
pub enum Which {
    First,
    Second,
}

/// A stripe of two readings: its bytes, in the image of the one that it is decoded in.
#[derive(Clone, Copy, Debug, PartialEq, Eq)]
pub struct Part<'a> {
    pub of: Which,
    pub bytes: &'a [u8],
}
