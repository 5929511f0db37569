//! Why an image gives its records back or does not: the answer of [`calls::explain`] as values.
use crate::{calls, sizes, Fault, Header, Refusal};

/// What is left of a stripe that recovery needs: the full stripe, or a filled level.
#[derive(Clone, Copy, Debug, PartialEq, Eq)]
pub struct Count {
    pub stripe: u32,
    /// The positions that survive.
    pub left: u32,
    /// How many have to: half of the stripe's positions.
    pub needed: u32,
    /// How many more would do. It is 0 where enough are left.
    pub shortfall: u32,
}

/// Where a record comes from.
#[derive(Clone, Copy, Debug, PartialEq, Eq)]
pub enum Origin {
    /// From the full stripe: the round has no write to it.
    Full,
    /// From the last write to it in the round, which has this number there, and from the level that holds it.
    Level { stripe: u32, write: u32 },
}

/// What recovery finds in an image.
#[derive(Clone, Debug, PartialEq, Eq)]
pub struct Explanation {
    /// Each needed stripe, in the order in which they are decoded: the full stripe, then the filled levels downward. Those behind a stripe at fault are counted
    /// too.
    pub counts: Vec<Count>,
    /// The origin of each record, or recovery's fault.
    pub origins: Result<Vec<Origin>, Fault>,
}

impl Explanation {
    /// Explains an image of which the bytes that the erasure list covers are lost. Refused only where recovery names no stripe, since then no position was
    /// counted.
    pub fn new(header: Header, image: &[u8], erasures: &[u8]) -> Result<Explanation, Refusal> {
        let Header { k, s, .. } = header;
        let mut counts = vec![0; sizes::counts(k, s)];
        let mut origins = vec![0; sizes::origins(k, s)];
        let mut scratch = vec![0; sizes::scratch(k, s)];
        let answer = calls::explain(
            header,
            image,
            erasures,
            &mut counts,
            &mut origins,
            &mut scratch,
        );
        if let Err(fault) = answer {
            if fault.stripe.is_none() {
                return Err(fault.refusal);
            }
        }
        let needed = (0..=k).rev().filter(|&stripe| header.filled(stripe));
        let count = |stripe| {
            let at = 2 * stripe as usize;
            Count {
                stripe,
                left: counts[at],
                needed: 1 << stripe,
                shortfall: counts[at + 1],
            }
        };
        let origin = |pair: &[u32]| match *pair {
            [stripe, write] if stripe < k => Origin::Level { stripe, write },
            _ => Origin::Full,
        };
        Ok(Explanation {
            counts: needed.map(count).collect(),
            origins: answer.map(|()| origins.chunks(2).map(origin).collect()),
        })
    }
}
