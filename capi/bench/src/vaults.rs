//! The same vault in four implementations, and the jobs that are timed: opening, a round of writes, recovery; and explaining and a round of strikes, by the
//! library alone.
use crate::{plain, tuned};
use random::Random;
use reference::{opening, recovery, writing};
use vault_library::{calls, erasures, sizes, stripes, Header};

#[derive(Clone, Copy, PartialEq)]
pub enum By {
    Library,
    Plain,
    Tuned,
    Reference,
}

/// A record number and its block.
type Write = (u32, Vec<u32>);

/// What is written and lost: the same for each implementation.
pub struct Job {
    pub k: u32,
    pub s: u32,
    raw: Vec<u32>,
    /// The writes of a round.
    writes: Vec<Write>,
    /// The image after all of these but the last.
    pub image: Vec<u8>,
    /// Exactly half of each stripe, chosen at random.
    erasures: Vec<u8>,
}

impl Job {
    pub fn new(k: u32, s: u32) -> Job {
        let mut random = Random::new(u64::from(1000 * k + s));
        let mut numbers = |count: usize, n: u64| -> Vec<u32> {
            (0..count).map(|_| random.below(n) as u32).collect()
        };
        let n = 1 << k;
        let raw = numbers(sizes::raw(k, s), 65536);
        let writes = (0..n).map(|_| {
            let (record, mut block) = (numbers(1, n)[0], numbers(s as usize, 65536));
            // A blank block would be refused.
            block[0] = block[0].max(1);
            (record, block)
        });
        let mut job = Job {
            k,
            s,
            raw,
            writes: writes.collect(),
            image: vec![0; sizes::image(k, s)],
            erasures: half(&mut random, k, s),
        };
        let mut vault = Vault::new(&job);
        vault.open(By::Library);
        vault.write(By::Library, &job.writes[1..]);
        let Vault {
            header, full, log, ..
        } = &vault;
        calls::image(*header, full, log, &mut job.image).expect("an image");
        job
    }

    /// The bytes of the records' data: two for a word.
    pub fn data(&self) -> Vec<u8> {
        let words = self.raw.iter().map(|&word| word as u16);
        words.flat_map(u16::to_le_bytes).collect()
    }

    /// Tests that the implementations leave the same words after each write and give the same records. The reference recovers only where it is fast.
    pub fn check(&self) {
        let [mut library, mut plain, mut tuned, mut reference] = [(); 4].map(|()| Vault::new(self));
        library.open(By::Library);
        plain.open(By::Plain);
        tuned.open(By::Tuned);
        reference.open(By::Reference);
        for write in &self.writes {
            let write = std::slice::from_ref(write);
            library.write(By::Library, write);
            plain.write(By::Plain, write);
            tuned.write(By::Tuned, write);
            reference.write(By::Reference, write);
            let equal = library == plain && library == tuned && library == reference;
            assert!(equal, "buffers differ after a write");
        }
        library.recover(By::Library, self);
        plain.recover(By::Plain, self);
        tuned.recover(By::Tuned, self);
        let equal = library == plain && library == tuned;
        assert!(equal, "recovered records differ");
        let damaged = library.records.clone();
        library.recover_intact(By::Library, self);
        assert!(
            library.records == damaged,
            "the intact image has other records"
        );
        if self.k <= 6 {
            reference.recover(By::Reference, self);
            assert!(library == reference, "recovered records differ");
        }
    }

    /// Tests that explaining counts half of each stripe, and names for each record the last write to it in the round, if there is one.
    pub fn check_explained(&self) {
        let mut vault = Vault::new(self);
        vault.explain(self);
        let halves = vault.counts.chunks(2).zip(0..);
        let mut halves = halves.map(|(count, stripe)| count == [1 << stripe, 0]);
        assert!(halves.all(|half| half), "counts are wrong");
        let written = &self.writes[1..];
        for (record, origin) in (0..).zip(vault.origins.chunks(2)) {
            let last = written.iter().rposition(|write| write.0 == record);
            let named = (origin[0] < self.k).then_some(origin[1] as usize);
            assert!(named == last, "an origin is wrong");
        }
    }
}

/// An erasure list over exactly half of each stripe.
fn half(random: &mut Random, k: u32, s: u32) -> Vec<u8> {
    let mut lost = Vec::new();
    for stripe in 0..=k {
        let positions = stripes::positions(stripe);
        let some = random.some(positions, positions / 2);
        lost.extend(some.iter().map(|&i| stripes::position(k, s, stripe, i)));
    }
    erasures::list(lost)
}

/// The buffers of one implementation.
#[derive(PartialEq)]
pub struct Vault {
    header: Header,
    raw: Vec<u32>,
    full: Vec<u32>,
    log: Vec<u32>,
    records: Vec<u32>,
    counts: Vec<u32>,
    origins: Vec<u32>,
    scratch: Vec<u32>,
}

impl Vault {
    pub fn new(job: &Job) -> Vault {
        let (k, s) = (job.k, job.s);
        Vault {
            header: Header { k, s, c: 0 },
            raw: job.raw.clone(),
            full: vec![0; sizes::full(k, s)],
            log: vec![0; sizes::log(k, s)],
            records: vec![0; sizes::raw(k, s)],
            counts: vec![0; sizes::counts(k, s)],
            origins: vec![0; sizes::origins(k, s)],
            scratch: vec![0; sizes::scratch(k, s)],
        }
    }

    pub fn open(&mut self, by: By) {
        let Header { k, s, .. } = self.header;
        let (raw, full, log) = (&self.raw, &mut self.full, &mut self.log);
        let taken = match by {
            By::Library => calls::open(k, s, raw, full, log).is_ok(),
            By::Plain => plain::open(k, s, raw, full, log) == 0,
            By::Tuned => tuned::open(k, s, raw, full, log) == 0,
            By::Reference => opening::open(k, s, raw, full, log).0 == 0,
        };
        assert!(taken);
    }

    fn write(&mut self, by: By, writes: &[Write]) {
        let (raw, full, log) = (&mut self.raw, &mut self.full, &mut self.log);
        let header = &mut self.header;
        for (record, block) in writes {
            let Header { k, s, c } = *header;
            let taken = match by {
                By::Library => calls::write(header, raw, full, log, *record, block).is_ok(),
                By::Plain => {
                    let before = plain::Header { k, s, c };
                    let (number, c) = plain::write(before, raw, full, log, *record, block);
                    header.c = c;
                    number == 0
                }
                By::Tuned => {
                    let before = tuned::Header { k, s, c };
                    let (number, c) = tuned::write(before, raw, full, log, *record, block);
                    header.c = c;
                    number == 0
                }
                By::Reference => {
                    let before = reference::header::Header { k, s, c };
                    let (number, after) = writing::write(before, raw, full, log, *record, block);
                    header.c = after.c;
                    number == 0
                }
            };
            assert!(taken);
        }
    }

    /// Makes all writes of a round.
    pub fn round(&mut self, by: By, job: &Job) {
        self.write(by, &job.writes);
    }

    /// Strikes the records that these writes are to, one after the other, by the library.
    pub fn strike(&mut self, job: &Job) {
        let (raw, full, log) = (&mut self.raw, &mut self.full, &mut self.log);
        for (record, _) in &job.writes {
            assert!(calls::strike(&mut self.header, raw, full, log, *record).is_ok());
        }
    }

    /// Recovers from the job's image, which has c = n - 1.
    pub fn recover(&mut self, by: By, job: &Job) {
        self.recover_without(by, job, &job.erasures);
    }

    /// The same with nothing lost.
    pub fn recover_intact(&mut self, by: By, job: &Job) {
        self.recover_without(by, job, &[]);
    }

    fn recover_without(&mut self, by: By, job: &Job, erasures: &[u8]) {
        let Header { k, s, .. } = self.header;
        let c = (1 << k) - 1;
        let image = &job.image;
        let (out, scratch) = (&mut self.records, &mut self.scratch);
        let taken = match by {
            By::Library => {
                let header = Header { k, s, c };
                calls::recover(header, image, erasures, out, scratch).is_ok()
            }
            By::Plain => {
                let header = plain::Header { k, s, c };
                plain::recover(header, image, erasures, out, scratch) == (0, None)
            }
            By::Tuned => {
                let header = tuned::Header { k, s, c };
                tuned::recover(header, image, erasures, out, scratch) == (0, None)
            }
            By::Reference => {
                let header = reference::header::Header { k, s, c };
                recovery::recover(header, image, erasures, out, scratch) == (0, None)
            }
        };
        assert!(taken);
    }

    /// Explains the recovery from the job's image, by the library.
    pub fn explain(&mut self, job: &Job) {
        let Header { k, s, .. } = self.header;
        let c = (1 << k) - 1;
        let (image, erasures) = (&job.image, &job.erasures);
        let (counts, origins) = (&mut self.counts, &mut self.origins);
        let scratch = &mut self.scratch;
        let header = Header { k, s, c };
        assert!(calls::explain(header, image, erasures, counts, origins, scratch).is_ok());
    }
}
