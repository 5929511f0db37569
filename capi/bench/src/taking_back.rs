//! What is timed of taking back: the call on a vault, and beside it the call decode of exactly the stripes that it decodes, in an image of that vault.
use crate::measure::Restored;
use random::Random;
use vault_library::{calls, sizes, stripes, Header, Refusal};

/// A vault that changes.
#[derive(Clone, PartialEq)]
struct Buffers {
    header: Header,
    raw: Vec<u32>,
    full: Vec<u32>,
    log: Vec<u32>,
}

impl Buffers {
    fn open(k: u32, s: u32, raw: Vec<u32>) -> Buffers {
        let (mut full, mut log) = (vec![0; sizes::full(k, s)], vec![0; sizes::log(k, s)]);
        let header = calls::open(k, s, &raw, &mut full, &mut log).expect("an opening");
        Buffers {
            header,
            raw,
            full,
            log,
        }
    }

    fn write(&mut self, record: u32, block: &[u32]) {
        let (raw, full, log) = (&mut self.raw, &mut self.full, &mut self.log);
        calls::write(&mut self.header, raw, full, log, record, block).expect("a write");
    }

    fn image(&self) -> Vec<u8> {
        let mut image = vec![0; sizes::image(self.header.k, self.header.s)];
        calls::image(self.header, &self.full, &self.log, &mut image).expect("an image");
        image
    }

    /// The words of a stripe.
    fn stripe(&mut self, stripe: u32) -> &mut [u32] {
        let Header { k, s, .. } = self.header;
        if stripe == k {
            return &mut self.full;
        }
        let (first, count) = (stripes::positions(stripe) - 2, stripes::positions(stripe));
        let width = s as usize + 1;
        &mut self.log[first * width..][..count * width]
    }

    /// Becomes what another is.
    fn copy(&mut self, from: &Buffers) {
        self.header = from.header;
        self.raw.copy_from_slice(&from.raw);
        self.full.copy_from_slice(&from.full);
        self.log.copy_from_slice(&from.log);
    }
}

/// Where the round has the last write's record besides.
#[derive(Clone, Copy, PartialEq)]
pub enum Before {
    /// In the first block of the level that the last write is on, the lowest filled one.
    OnItsLevel,
    Nowhere,
}

/// A vault whose last write is taken back.
pub struct TakingBack {
    written: Buffers,
    now: Buffers,
    scratch: Vec<u32>,
}

/// The stripes that this decodes, in its order, in the image of that vault.
pub struct Decoding {
    header: Header,
    pub stripes: Vec<u32>,
    image: Vec<u8>,
    now: Vec<u8>,
    out: Vec<u32>,
    scratch: Vec<u32>,
}

/// Both for a vault with c writes, of which the last is to a record that the round has before it where it is said.
pub fn case(header: Header, before: Before) -> (TakingBack, Decoding) {
    let Header { k, s, c } = header;
    let mut random = Random::new(u64::from(1000 * k + s));
    let mut numbers =
        |count: usize, n: u64| -> Vec<u32> { (0..count).map(|_| random.below(n) as u32).collect() };
    let mut written = Buffers::open(k, s, numbers(sizes::raw(k, s), 65536));
    // The last record is left for the last write. Its level, the lowest filled one, begins with the write whose number is c without its lowest bit.
    let mut records = numbers(c as usize, (1 << k) - 1);
    let first = (c & (c - 1)) as usize;
    records[c as usize - 1] = match before {
        Before::OnItsLevel => records[first],
        Before::Nowhere => (1 << k) - 1,
    };
    let mut earlier = written.clone();
    for record in records {
        earlier.copy(&written);
        let mut block = numbers(s as usize, 65536);
        // A blank block would be refused.
        block[0] = block[0].max(1);
        written.write(record, &block);
    }
    let filled = (0..=k).filter(|&stripe| written.header.filled(stripe));
    let decoded = match before {
        Before::OnItsLevel => filled.take(1).collect(),
        Before::Nowhere => filled.collect(),
    };
    let decoding = Decoding::new(&written, decoded);
    let mut taking_back = TakingBack::new(written);
    taking_back.check(&earlier, &decoding.stripes);
    (taking_back, decoding)
}

impl TakingBack {
    fn new(written: Buffers) -> TakingBack {
        let Header { k, s, .. } = written.header;
        TakingBack {
            now: written.clone(),
            written,
            scratch: vec![0; sizes::take_back_scratch(k, s)],
        }
    }

    fn take_back(&mut self) -> Result<(), Refusal> {
        let Buffers {
            header,
            raw,
            full,
            log,
        } = &mut self.now;
        calls::take_back(header, raw, full, log, &mut self.scratch)
    }

    /// Tests that the vault is as it was earlier, before the write, and that just these stripes are looked at: with words out of the field, one of these is
    /// refused, and another one makes no difference.
    fn check(&mut self, earlier: &Buffers, decoded: &[u32]) {
        self.restore();
        assert_eq!(self.take_back(), Ok(()));
        assert!(self.now == *earlier, "the vault is not as before the write");
        for stripe in 0..=earlier.header.k {
            self.restore();
            self.now.stripe(stripe).fill(u32::MAX);
            let looked_at = self.take_back() == Err(Refusal::OutOfField);
            assert_eq!(looked_at, decoded.contains(&stripe), "stripe {stripe}");
            let c = earlier.header.c + u32::from(looked_at);
            assert_eq!(self.now.header.c, c, "stripe {stripe}");
        }
    }
}

impl Restored for TakingBack {
    fn restore(&mut self) {
        self.now.copy(&self.written);
    }

    fn run(&mut self) {
        assert_eq!(self.take_back(), Ok(()));
    }
}

impl Decoding {
    fn new(written: &Buffers, stripes: Vec<u32>) -> Decoding {
        let Header { k, s, .. } = written.header;
        let image = written.image();
        Decoding {
            header: written.header,
            stripes,
            now: image.clone(),
            image,
            out: vec![0; sizes::blocks(k, s)],
            scratch: vec![0; sizes::scratch(k, s)],
        }
    }
}

/// The image is copied anew too, though nothing changes it: so the caches hold as much of it as they hold of the other's buffers.
impl Restored for Decoding {
    fn restore(&mut self) {
        self.now.copy_from_slice(&self.image);
    }

    fn run(&mut self) {
        let (image, out, scratch) = (&self.now, &mut self.out, &mut self.scratch);
        for &stripe in &self.stripes {
            let taken = calls::decode(self.header, image, &[], stripe, out, scratch);
            assert_eq!(taken, Ok(()));
        }
    }
}
