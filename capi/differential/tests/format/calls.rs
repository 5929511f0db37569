//! Calls made of the library and of reference/ side by side, which have to give and leave the same.
use differential::both::Both;
use reference::calls::{Answer, Call};
use reference::header::Header as ReferenceHeader;
use reference::lent::{Lender, Words};
use reference::powers::ENTRIES;
use reference::two_readings::Place;
use vault_library::Header;

/// The same header for reference/, which has its own type so as to stand alone.
pub fn reference_header(header: Header) -> ReferenceHeader {
    let Header { k, s, c } = header;
    ReferenceHeader { k, s, c }
}

/// The elements of a guard.
const GUARD: usize = 3;

/// Whether all are 0.
fn zeros(words: &[u32]) -> bool {
    words.iter().all(|&x| x == 0)
}

/// A vault of the library's, and one of reference/ that is given the same: they have the same header and buffers after each call.
#[derive(Clone)]
pub struct Vault {
    both: Both,
}

/// Makes a call, in which both have to agree.
fn made(both: &mut Both, call: Call) -> Answer {
    both.call(call).unwrap_or_else(|text| panic!("{text}"))
}

/// Makes a call, which changes nothing where it is refused. Gives its number.
fn unless_taken(both: &mut Both, call: Call) -> u32 {
    let before = both.clone();
    let number = made(both, call).number;
    assert!(number == 0 || both.lent() == before.lent());
    number
}

impl Vault {
    /// An opening, which both accept.
    pub fn open(k: u32, s: u32, raw: Vec<u32>) -> Vault {
        let mut both = Both::new(ReferenceHeader { k, s, c: 0 }, GUARD);
        both.set(|lender| lender.raw.set(&raw));
        assert_eq!(made(&mut both, Call::Open).number, 0);
        Vault { both }
    }

    /// An opening, which both accept or refuse. Gives its number, with the buffers afterwards as section 10 has them.
    pub fn any_opening(k: u32, s: u32, raw: &[u32]) -> u32 {
        let mut both = Both::new(ReferenceHeader { k, s, c: 0 }, GUARD);
        both.set(|lender| lender.raw.set(raw));
        both.soil(Call::Open, BEFORE);
        unless_taken(&mut both, Call::Open)
    }

    /// An opening of zero records.
    pub fn zeros(k: u32, s: u32) -> Vault {
        Vault::open(k, s, vec![0; (s as usize) << k])
    }

    /// A write, which both accept.
    pub fn write(&mut self, record: u32, block: &[u32]) {
        assert_eq!(self.any_write(record, block), 0);
    }

    /// A write, which both accept or refuse. Gives its number.
    pub fn any_write(&mut self, record: u32, block: &[u32]) -> u32 {
        self.both.set(|lender| lender.block.set(block));
        made(&mut self.both, Call::Write { record }).number
    }

    /// A strike, which both accept or refuse. Gives its number, with the buffers afterwards as section 10 has them.
    pub fn strike(&mut self, record: u32) -> u32 {
        unless_taken(&mut self.both, Call::Strike { record })
    }

    /// A reading, which both accept or refuse. Gives its number; the part is the record, or empty.
    pub fn read(&self, record: u32) -> u32 {
        let mut both = self.both.clone();
        let answer = made(&mut both, Call::Read { record });
        let words = self.both.lent().header.data();
        let part = match answer.number {
            0 => (record as usize * words, words),
            _ => (0, 0),
        };
        assert_eq!(answer.part, Some(part));
        assert!(both.lent() == self.both.lent());
        answer.number
    }

    /// An earlier write, which the library no longer makes: both have what it leaves by reference/. Gives its number.
    pub fn earlier_write(&mut self, record: u32, block: &[u32]) -> u32 {
        self.both.set(|lender| lender.block.set(block));
        self.both.earlier_write(record)
    }

    /// A taking-back with a scratch of so many words, which both accept or refuse. Gives its number, with the buffers afterwards as section 10 has them.
    pub fn take_back(&mut self, scratch: usize) -> u32 {
        let soil = |both: &mut Both| both.soil(Call::TakeBack, BEFORE);
        let resize = |lender: &mut Lender| lender.double_scratch.resize(scratch, 0);
        self.both.set(resize);
        soil(&mut self.both);
        let before = self.both.clone();
        let number = made(&mut self.both, Call::TakeBack).number;
        if [0, 8, 9, 10].contains(&number) {
            assert!(zeros(self.both.lent().double_scratch.part()));
            soil(&mut self.both);
        }
        if number != 0 {
            assert!(self.both.lent() == before.lent());
        }
        number
    }

    /// Puts another word into a buffer of both.
    pub fn set_word(&mut self, buffer: Words, at: usize, word: u32) {
        let set = |lender: &mut Lender| lender.words_mut(buffer).part_mut()[at] = word;
        self.both.set(set);
    }

    /// Lends so many words of the raw copy.
    pub fn lend_raw(&mut self, count: usize) {
        self.both.set(|lender| lender.raw.resize(count, 0));
    }

    /// Puts another k into the header of both.
    pub fn set_k(&mut self, k: u32) {
        self.both.set(|lender| lender.header.k = k);
    }

    /// Puts another c into the header of both.
    pub fn set_count(&mut self, c: u32) {
        self.both.set(|lender| lender.header.c = c);
    }

    pub fn header(&self) -> Header {
        let ReferenceHeader { k, s, c } = self.both.lent().header;
        Header { k, s, c }
    }

    /// The raw copy that both have.
    pub fn records(&self) -> &[u32] {
        self.both.lent().raw.part()
    }

    /// The header and the image that both have.
    pub fn image(&self) -> (Header, Vec<u8>) {
        let mut both = self.both.clone();
        assert_eq!(made(&mut both, Call::Image).number, 0);
        (self.header(), both.lent().image.part().to_vec())
    }
}

/// What a call gave, and left in the buffers that it may change.
#[derive(Debug, PartialEq)]
pub struct Left {
    pub number: u32,
    pub stripe: Option<u32>,
    pub out: Vec<u32>,
    pub scratch: Vec<u32>,
    counts: Vec<u32>,
    /// Whether all buffers are as they were.
    unchanged: bool,
}

/// What buffers hold before a call that stores to them begins so: not with zeros, so that zeros afterwards are the call's.
const BEFORE: u32 = 9;

impl Left {
    /// Makes a call, with the buffers afterwards as section 10 has them.
    fn by(mut both: Both, call: Call) -> Left {
        both.soil(call, BEFORE);
        let before = both.clone();
        let Answer { number, stripe, .. } = made(&mut both, call);
        let lent = both.lent();
        let unchanged = lent == before.lent();
        assert_eq!(unchanged, (1..=6).contains(&number) || number == 13);
        if call.gives(7) && !unchanged {
            assert!(zeros(lent.scratch.part()));
            assert!(number == 0 || zeros(lent.out.part()));
        }
        Left {
            number,
            stripe,
            out: lent.out.part().to_vec(),
            scratch: lent.scratch.part().to_vec(),
            counts: lent.counts.part().to_vec(),
            unchanged,
        }
    }

    /// What the output holds; nothing where it is unchanged.
    pub fn stored(&self) -> Option<&[u32]> {
        Some(&self.out[..]).filter(|_| !self.unchanged)
    }

    /// The same of the counts.
    pub fn counts(&self) -> Option<&[u32]> {
        Some(&self.counts[..]).filter(|_| !self.unchanged)
    }
}

/// A call on an image.
pub fn on_image(header: Header, image: &[u8], list: &[u8], call: Call) -> Left {
    let mut both = Both::new(reference_header(header), GUARD);
    both.lend_output(call);
    both.set(|lender| {
        lender.image.set(image);
        lender.list.set(list);
    });
    Left::by(both, call)
}

/// Recovery.
pub fn recover(header: Header, image: &[u8], list: &[u8]) -> Left {
    on_image(header, image, list, Call::Recover)
}

/// Decoding of one stripe.
pub fn decode_stripe(header: Header, image: &[u8], list: &[u8], stripe: u32) -> Left {
    on_image(header, image, list, Call::Decode { stripe })
}

/// An image, and the erasure list that goes with it.
pub type Reading<'a> = (&'a [u8], &'a [u8]);

/// Two readings, lent to both.
fn lent(header: Header, readings: [Reading; 2]) -> Both {
    let mut both = Both::new(reference_header(header), GUARD);
    let [(image, list), (image2, list2)] = readings;
    both.set(|lender| {
        lender.image.set(image);
        lender.list.set(list);
        lender.image2.set(image2);
        lender.list2.set(list2);
    });
    both
}

/// Recovery from two readings.
pub fn recover_two(header: Header, readings: [Reading; 2]) -> Left {
    let mut both = lent(header, readings);
    both.lend_output(Call::RecoverTwo);
    Left::by(both, Call::RecoverTwo)
}

/// A stripe of two readings: the number, and where it stands. Nothing changes.
pub fn shelf_of_two(header: Header, readings: [Reading; 2], stripe: u32) -> (u32, Place) {
    let mut both = lent(header, readings);
    let before = both.clone();
    let answer = made(&mut both, Call::ShelfOfTwo { stripe });
    assert!(both.lent() == before.lent());
    let place = answer.place.expect("a place");
    assert!(answer.number == 0 || place == Place::default());
    (answer.number, place)
}

/// The explanation of a recovery, which has the number and the stripe of that recovery.
pub fn explain(header: Header, image: &[u8], list: &[u8]) -> Left {
    let explained = on_image(header, image, list, Call::Explain);
    let recovered = recover(header, image, list);
    assert_eq!(
        (explained.number, explained.stripe),
        (recovered.number, recovered.stripe)
    );
    explained
}

/// The call powers over a buffer of this length.
pub fn powers(length: usize) -> Left {
    let mut both = Both::new(ReferenceHeader { k: 1, s: 1, c: 0 }, GUARD);
    both.set(|lender| lender.out.resize(length, 0));
    Left::by(both, Call::Powers)
}

/// The table of powers.
pub fn power_table() -> Vec<u32> {
    let left = powers(ENTRIES);
    assert_eq!(left.number, 0);
    left.out
}
