//! What is timed of two readings: the call recover_two, and beside it recover of the first of them and one pass over both images, which compares their bytes.
use crate::vaults::Job;
use random::Random;
use std::hint::black_box;
use std::ops::Range;
use vault_library::{calls, erasures, sizes, stripes, Fault, Header, Reading, Refusal, Which};

/// What the two readings have lost.
#[derive(Clone, Copy)]
pub enum Loss {
    /// Half of each stripe, chosen for each reading at random, but a position less on levels 1, 3 and so on of the second, which are so taken from it.
    Half,
    Nothing,
}

/// Two readings of a job's image, which has c = n - 1. Each image is a buffer of its own, and both have the same bytes, at lost positions too: so the pass goes
/// over all of both.
pub struct TwoReadings {
    header: Header,
    images: [Vec<u8>; 2],
    /// The bytes of each lost position.
    lost: [Vec<Range<usize>>; 2],
    erasures: [Vec<u8>; 2],
}

/// What a call gives its records in.
pub struct Buffers {
    records: Vec<u32>,
    scratch: Vec<u32>,
}

impl TwoReadings {
    pub fn new(job: &Job, loss: Loss) -> TwoReadings {
        let (k, s) = (job.k, job.s);
        let c = (1 << k) - 1;
        let mut random = Random::new(u64::from(1000 * k + s));
        let lost = [0, 1].map(|second| match loss {
            Loss::Half => half(&mut random, k, s, second),
            Loss::Nothing => Vec::new(),
        });
        TwoReadings {
            header: Header { k, s, c },
            images: [job.image.clone(), job.image.clone()],
            erasures: lost.clone().map(erasures::list),
            lost,
        }
    }

    pub fn buffers(&self) -> Buffers {
        let Header { k, s, .. } = self.header;
        Buffers {
            records: vec![0; sizes::raw(k, s)],
            scratch: vec![0; sizes::scratch(k, s)],
        }
    }

    fn readings(&self) -> [Reading<'_>; 2] {
        [0, 1].map(|i| Reading {
            image: &self.images[i],
            erasures: &self.erasures[i],
        })
    }

    fn both(&self, buffers: &mut Buffers) -> Result<(), Fault> {
        let [first, second] = self.readings();
        let (out, scratch) = (&mut buffers.records, &mut buffers.scratch);
        calls::recover_two(self.header, first, second, out, scratch)
    }

    fn one(&self, reading: Reading, buffers: &mut Buffers) {
        let Reading { image, erasures } = reading;
        let (out, scratch) = (&mut buffers.records, &mut buffers.scratch);
        let taken = calls::recover(self.header, image, erasures, out, scratch);
        assert_eq!(taken, Ok(()));
    }

    /// Recovers from both.
    pub fn recover(&self, buffers: &mut Buffers) {
        assert_eq!(self.both(buffers), Ok(()));
    }

    /// Recovers from the first, and compares the images.
    pub fn recover_one_and_compare(&self, buffers: &mut Buffers) {
        let [first, second] = self.readings();
        self.one(first, buffers);
        assert!(black_box(first.image) == black_box(second.image));
    }

    /// Tests that both give the records that either alone gives, that each stripe is taken from the one that has more of it, and that it is compared.
    pub fn check(&mut self) {
        let [mut two, mut one] = [self.buffers(), self.buffers()];
        self.recover(&mut two);
        for reading in self.readings() {
            self.one(reading, &mut one);
            assert!(one.records == two.records, "recovered records differ");
        }
        for stripe in 0..=self.header.k {
            self.check_taken(stripe);
            self.check_compared(stripe, &two.records);
        }
    }

    /// The bytes of the positions of a stripe that survive in the first and in the second, or do not, as is said.
    fn positions(&self, stripe: u32, survive: [bool; 2]) -> Vec<Range<usize>> {
        let Header { k, s, .. } = self.header;
        let all = (0..stripes::positions(stripe)).map(|i| stripes::position(k, s, stripe, i));
        let here = |bytes: &Range<usize>| [0, 1].map(|i| !self.lost[i].contains(bytes)) == survive;
        all.filter(here).collect()
    }

    fn check_taken(&self, stripe: u32) {
        let alone = [[true, false], [false, true]].map(|which| self.positions(stripe, which));
        let of = if alone[1].len() > alone[0].len() {
            Which::Second
        } else {
            Which::First
        };
        let [first, second] = self.readings();
        let part = calls::shelf_of_two(self.header, first, second, stripe);
        assert_eq!(part.map(|part| part.of), Ok(of), "stripe {stripe}");
    }

    /// A byte is another in the second image: where the position survives in both they are refused, and where it is lost there it makes no difference.
    fn check_compared(&mut self, stripe: u32, records: &[u32]) {
        let mut buffers = self.buffers();
        for (survive, refused) in [([true, true], true), ([true, false], false)] {
            let Some(bytes) = self.positions(stripe, survive).pop() else {
                continue;
            };
            let last = bytes.end - 1;
            self.images[1][last] ^= 1;
            let answer = self.both(&mut buffers).map_err(|fault| fault.refusal);
            self.images[1][last] ^= 1;
            if refused {
                assert_eq!(answer, Err(Refusal::ReadingsDiffer), "stripe {stripe}");
            } else {
                assert!(
                    answer.is_ok() && buffers.records == records,
                    "stripe {stripe}"
                );
            }
        }
    }
}

/// The bytes of half of the positions of each stripe, or, in the second reading, of one position less of every other.
fn half(random: &mut Random, k: u32, s: u32, second: usize) -> Vec<Range<usize>> {
    let mut lost = Vec::new();
    for stripe in 0..=k {
        let positions = stripes::positions(stripe);
        let count = positions / 2 - second * (stripe as usize % 2);
        let some = random.some(positions, count);
        lost.extend(some.iter().map(|&i| stripes::position(k, s, stripe, i)));
    }
    lost
}

#[cfg(test)]
mod tests {
    use super::*;

    #[test]
    fn small_cases() {
        for (k, s) in [(1, 1), (2, 3), (5, 2), (6, 1)] {
            for loss in [Loss::Half, Loss::Nothing] {
                let mut readings = TwoReadings::new(&Job::new(k, s), loss);
                readings.check();
                readings.recover_one_and_compare(&mut readings.buffers());
            }
        }
    }
}
