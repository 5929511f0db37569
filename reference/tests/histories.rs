//! Recovery after any history of writes, earlier writes, strikes and takings-back gives the records of the model (docs/FORMAT.md), whatever half of each stripe
//! is lost, and from two readings, of which one has half of each stripe; and the explanation is the true one, whatever is lost.
use random::Random;
use reference::explanation::explain;
use reference::header::Header;
use reference::image::image;
use reference::opening::open;
use reference::reading::read;
use reference::record::STRUCK;
use reference::recovery::{decode_stripe, recover};
use reference::striking::strike;
use reference::taking_back::take_back;
use reference::two_readings::{recover_two, shelf_of_two, Place, Reading};
use reference::writing::{earlier_write, write};

/// Loses so many positions of each stripe: garbage in the image, and the list.
fn lose(random: &mut Random, header: Header, image: &mut [u8], counts: &[usize]) -> Vec<u8> {
    let bytes = 4 * header.width();
    let mut lost = vec![false; image.len()];
    for (stripe, &count) in (0..).zip(counts) {
        for i in random.some(2 << stripe, count) {
            let start = 4 * header.stripe_start(stripe) + i * bytes;
            lost[start..start + bytes].fill(true);
        }
    }
    let mut list: Vec<u8> = Vec::new();
    for i in 0..image.len() {
        if !lost[i] {
            continue;
        }
        image[i] = random.below(256) as u8;
        if i == 0 || !lost[i - 1] {
            let length = lost[i..].iter().take_while(|&&x| x).count();
            list.extend((i as u32).to_le_bytes());
            list.extend((length as u32).to_le_bytes());
        }
    }
    list
}

/// Half of the positions of the full stripe and of each filled level, and all of each empty level.
fn half(header: Header) -> Vec<usize> {
    let count = |stripe| match header.filled(stripe) {
        true => 1 << stripe,
        false => 2 << stripe,
    };
    (0..=header.k).map(count).collect()
}

/// Any number of positions of each stripe.
fn some(random: &mut Random, header: Header) -> Vec<usize> {
    let count = |stripe: u32| {
        let half = 1 << stripe;
        let most = *random.one(&[half, half + 1, 2 * half]);
        random.index(most + 1)
    };
    (0..=header.k).map(count).collect()
}

/// Losses of two readings, of which at least one keeps half of each stripe.
fn together(random: &mut Random, header: Header) -> [Vec<usize>; 2] {
    let mut counts = [Vec::new(), Vec::new()];
    for stripe in 0..=header.k {
        let few = random.index((1 << stripe) + 1);
        let any = random.index((2 << stripe) + 1);
        let other = *random.one(&[few, any]);
        let first = random.index(2);
        counts[first].push(few);
        counts[1 - first].push(other);
    }
    counts
}

/// What an explanation has to give after a loss: the number, the stripe, the counts, and the origins of records whose last writes in the round are these.
fn expected(
    header: Header,
    lost: &[usize],
    last: &[Option<u32>],
) -> (u32, Option<u32>, Vec<u32>, Vec<u32>) {
    let mut counts = Vec::new();
    let mut short = None;
    for (stripe, lost) in (0..).zip(lost) {
        let (left, half) = ((2 << stripe) - lost, 1 << stripe);
        if !header.filled(stripe) {
            counts.extend([0, 0]);
        } else if left < half {
            counts.extend([left as u32, (half - left) as u32]);
            // The highest of them is decoded first.
            short = Some(stripe);
        } else {
            counts.extend([left as u32, 0]);
        }
    }
    let origin = |write: &Option<u32>| match (short, write) {
        (Some(_), _) => [0, 0],
        (None, None) => [header.k, 0],
        // Write t is on the level of the highest bit in which t and c differ.
        (None, Some(t)) => [31 - (t ^ header.c).leading_zeros(), *t],
    };
    let origins = last.iter().flat_map(origin).collect();
    let number = if short.is_some() { 7 } else { 0 };
    (number, short, counts, origins)
}

/// Loses so many positions of each stripe, and explains.
fn explanation_is_true(
    random: &mut Random,
    header: Header,
    image: &[u8],
    lost: &[usize],
    last: &[Option<u32>],
) {
    let mut bytes = image.to_vec();
    let list = lose(random, header, &mut bytes, lost);
    let mut counts = vec![9; header.counts_len()];
    let mut origins = vec![9; header.origins_len()];
    let mut scratch = vec![9; header.scratch_len()];
    let (number, stripe) = explain(
        header,
        &bytes,
        &list,
        &mut counts,
        &mut origins,
        &mut scratch,
    );
    let given = (number, stripe, counts, origins);
    assert_eq!(given, expected(header, lost, last));
    assert!(scratch.iter().all(|&x| x == 0));
}

/// A vault, and the model that is fed the same.
struct History {
    header: Header,
    raw: Vec<u32>,
    full: Vec<u32>,
    log: Vec<u32>,
    /// The model's records.
    book: Vec<u32>,
    /// The last write to each record in the round.
    last: Vec<Option<u32>>,
    /// The blocks of the round, in order of time.
    blocks: Vec<u32>,
    /// The model's records before each of them.
    before: Vec<Vec<u32>>,
}

fn data(random: &mut Random, count: usize) -> Vec<u32> {
    (0..count).map(|_| random.below(65536) as u32).collect()
}

/// Records to open, of which some are struck.
fn records(random: &mut Random, k: u32, s: u32) -> Vec<u32> {
    let record = |random: &mut Random| match random.below(4) {
        0 => vec![STRUCK; s as usize],
        _ => data(random, s as usize),
    };
    (0..1 << k).flat_map(|_| record(random)).collect()
}

impl History {
    /// An opening of these records.
    fn open(k: u32, s: u32, raw: Vec<u32>) -> History {
        let header = Header { k, s, c: 0 };
        let (mut full, mut log) = (vec![9; header.full_len()], vec![9; header.log_len()]);
        assert_eq!(open(k, s, &raw, &mut full, &mut log), (0, header));
        History {
            header,
            book: raw.clone(),
            raw,
            full,
            log,
            last: vec![None; header.records()],
            blocks: Vec::new(),
            before: Vec::new(),
        }
    }

    /// A write, of today or earlier, of a block of data words to a record that there is: 11 for a blank block of today.
    fn write(&mut self, earlier: bool, record: u32, block: &[u32]) {
        let write = if earlier { earlier_write } else { write };
        let before = (self.raw.clone(), self.full.clone(), self.log.clone());
        let (raw, full, log) = (&mut self.raw, &mut self.full, &mut self.log);
        let answer = write(self.header, raw, full, log, record, block);
        if !earlier && block.iter().all(|&x| x == 0) {
            assert_eq!(answer, (11, self.header));
            let after = (&self.raw, &self.full, &self.log);
            assert_eq!(after, (&before.0, &before.1, &before.2));
            return;
        }
        self.put(record, block, answer);
    }

    /// A strike of a record that there is.
    fn strike(&mut self, record: u32) {
        let (raw, full, log) = (&mut self.raw, &mut self.full, &mut self.log);
        let answer = strike(self.header, raw, full, log, record);
        self.put(record, &vec![STRUCK; self.header.data()], answer);
    }

    /// The model takes a write or a strike that the vault gave this answer to.
    fn put(&mut self, record: u32, block: &[u32], answer: (u32, Header)) {
        self.before.push(self.book.clone());
        let start = record as usize * block.len();
        self.book[start..start + block.len()].copy_from_slice(block);
        self.last[record as usize] = Some(self.header.c);
        self.blocks.push(record);
        self.blocks.extend(block);
        let c = (self.header.c + 1) % (1 << self.header.k);
        assert_eq!(answer, (0, Header { c, ..self.header }));
        self.header.c = c;
        if c == 0 {
            self.last.fill(None);
            self.blocks.clear();
            self.before.clear();
        }
        self.reads();
    }

    /// Each record of the model is read, unless it is struck.
    fn reads(&self) {
        for (record, data) in (0..).zip(self.book.chunks(self.header.data())) {
            let struck = data.iter().all(|&x| x == STRUCK);
            let expected = if struck { (14, &[][..]) } else { (0, data) };
            assert_eq!(read(self.header, &self.raw, record), expected);
        }
    }

    /// A taking-back with a scratch of so many words more than it has to have: 2 if they are any, 12 at a round's start.
    fn take_back(&mut self, more: usize) {
        let mut scratch = vec![9; self.header.double_scratch_len() + more];
        let (raw, full, log) = (&mut self.raw, &self.full, &mut self.log);
        let answer = take_back(self.header, raw, full, log, &mut scratch);
        if more > 0 {
            assert_eq!(answer, (2, self.header));
            return;
        }
        let Some(before) = self.before.pop() else {
            assert_eq!(answer, (12, self.header));
            return;
        };
        self.book = before;
        self.header.c -= 1;
        assert_eq!(answer, (0, self.header));
        let width = self.header.width();
        self.blocks.truncate(width * self.before.len());
        self.last.fill(None);
        for (write, block) in (0..).zip(self.blocks.chunks(width)) {
            self.last[block[0] as usize] = Some(write);
        }
        assert!(scratch.iter().all(|&x| x == 0));
        assert_eq!(self.raw, self.book);
        self.reads();
    }

    /// A taking-back, one that is refused, a write, or a strike.
    fn any_event(&mut self, random: &mut Random) {
        match random.below(16) {
            0..4 => self.take_back(0),
            4 => self.take_back(1),
            _ => self.any_write(random),
        }
    }

    /// A strike, or a write or an earlier write of a block that is blank or not, to any record.
    fn any_write(&mut self, random: &mut Random) {
        let record = random.below(self.header.records() as u64) as u32;
        let block = match random.below(4) {
            0 => vec![0; self.header.data()],
            1 => return self.strike(record),
            _ => data(random, self.header.data()),
        };
        self.write(random.below(2) == 0, record, &block);
    }

    /// Recovers and explains with half of each stripe lost, explains with any loss, and decodes each level.
    fn inspect(&self, random: &mut Random) {
        let header = self.header;
        let mut bytes = vec![9; header.image_len()];
        assert_eq!(image(header, &self.full, &self.log, &mut bytes), 0);
        let lost = some(random, header);
        explanation_is_true(random, header, &bytes, &lost, &self.last);
        explanation_is_true(random, header, &bytes, &half(header), &self.last);
        let list = lose(random, header, &mut bytes, &half(header));
        let mut out = data(random, header.raw_len());
        let mut scratch = data(random, header.scratch_len());
        let answer = recover(header, &bytes, &list, &mut out, &mut scratch);
        assert_eq!((answer, &out), ((0, None), &self.book));
        assert!(scratch.iter().all(|&x| x == 0));
        for level in (0..header.k).filter(|&level| header.filled(level)) {
            let mut out = data(random, header.blocks_len());
            let number = decode_stripe(header, &bytes, &list, level, &mut out, &mut scratch);
            let first = header.first(level) as usize * header.width();
            let mut expected = self.blocks[first..][..header.width() << level].to_vec();
            expected.resize(out.len(), 0);
            assert_eq!((number, out), (0, expected));
        }
    }

    /// Recovers from two readings, and takes each stripe out of that of which fewer positions are lost, the first if they are as many.
    fn read_twice(&self, random: &mut Random) {
        let header = self.header;
        let mut bytes = vec![9; header.image_len()];
        assert_eq!(image(header, &self.full, &self.log, &mut bytes), 0);
        let lost = together(random, header);
        let mut images = [bytes.clone(), bytes];
        let lists = [0, 1].map(|i| lose(random, header, &mut images[i], &lost[i]));
        let readings = [0, 1].map(|i| Reading {
            image: &images[i],
            list: &lists[i],
        });
        let mut out = data(random, header.raw_len());
        let mut scratch = data(random, header.scratch_len());
        let answer = recover_two(header, readings, &mut out, &mut scratch);
        assert_eq!((answer, &out), ((0, None), &self.book));
        assert!(scratch.iter().all(|&x| x == 0));
        for stripe in (0..=header.k).filter(|&stripe| header.filled(stripe)) {
            let place = Place {
                reading: u32::from(lost[1][stripe as usize] < lost[0][stripe as usize]),
                start: 4 * header.stripe_start(stripe),
                count: 4 * (2 << stripe) * header.width(),
            };
            assert_eq!(shelf_of_two(header, readings, stripe), (0, place));
        }
    }
}

/// Opens, and inspects after each `every`th event.
fn run(random: &mut Random, k: u32, s: u32, events: usize, every: usize) {
    let raw = records(random, k, s);
    let mut history = History::open(k, s, raw);
    for i in 0..=events {
        if i % every == 0 {
            history.inspect(random);
        }
        history.any_event(random);
    }
}

/// Rounds of which all writes but the last are made, and are taken back to the start: the vault and the model are as they were.
#[test]
fn rounds_are_taken_back() {
    let mut random = Random::new(9);
    for (k, s) in [(1, 1), (2, 3), (3, 1), (4, 2)] {
        let raw = records(&mut random, k, s);
        let mut history = History::open(k, s, raw);
        for _ in 0..3 {
            let start = (history.full.clone(), history.book.clone());
            while history.before.len() + 1 < 1 << k {
                history.any_write(&mut random);
            }
            while history.header.c > 0 {
                history.inspect(&mut random);
                history.take_back(0);
            }
            history.take_back(0);
            history.inspect(&mut random);
            assert_eq!((&history.full, &history.raw), (&start.0, &start.1));
            assert!(history.log.iter().all(|&x| x == 0));
            while history.before.len() + 1 < 1 << k {
                history.any_write(&mut random);
            }
            history.write(true, 0, &vec![1; s as usize]);
        }
    }
}

#[test]
fn small_vaults() {
    let mut random = Random::new(4);
    for (k, s) in [(1, 1), (1, 3), (2, 1), (2, 2), (3, 2), (4, 1)] {
        run(&mut random, k, s, 8 << k, 1);
    }
}

#[test]
fn two_readings() {
    let mut random = Random::new(10);
    for (k, s) in [(1, 1), (1, 3), (2, 1), (3, 2), (4, 1), (5, 2)] {
        let raw = records(&mut random, k, s);
        let mut history = History::open(k, s, raw);
        for _ in 0..6 << k {
            history.read_twice(&mut random);
            history.any_event(&mut random);
        }
    }
}

/// Zero records are opened, and blank blocks alone are written, to one record: every word of the log is 0, and the writes are there all the same.
#[test]
fn blank_blocks_alone() {
    let mut random = Random::new(6);
    for (k, s) in [(1, 1), (2, 2), (3, 1)] {
        let mut history = History::open(k, s, vec![0; (s as usize) << k]);
        for _ in 0..3 << k {
            history.inspect(&mut random);
            history.write(true, 0, &vec![0; s as usize]);
            assert!(history.log.iter().all(|&x| x == 0));
        }
    }
}

/// All records are opened struck, and struck again, and each round has one write.
#[test]
fn struck_records_alone() {
    let mut random = Random::new(16);
    for (k, s) in [(1, 1), (2, 2), (3, 1)] {
        let mut history = History::open(k, s, vec![STRUCK; (s as usize) << k]);
        for turn in 0..3 << k {
            history.inspect(&mut random);
            match turn % (1 << k) {
                1 => history.write(false, 0, &vec![1; s as usize]),
                other => history.strike(other),
            }
        }
        history.inspect(&mut random);
    }
}

#[test]
fn the_largest_vault() {
    run(&mut Random::new(5), 10, 128, 5, 5);
}
