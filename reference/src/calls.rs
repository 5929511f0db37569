//! The vault's calls as a table (docs/FORMAT.md, section 9): what each is given and lent, and which numbers it gives. The stored cases and the comparison with
//! the library both go by it.
use crate::header::Header;
use crate::lent::{
    Buffer, BLOCK, COUNTS, DOUBLE_SCRATCH, FULL, IMAGE, IMAGE2, LIST, LIST2, LOG, OUT, RAW, SCRATCH,
};
use crate::powers::ENTRIES;
use crate::two_readings::Place;

#[derive(Clone, Copy, Debug, PartialEq)]
pub enum Call {
    Open,
    Write { record: u32 },
    Strike { record: u32 },
    TakeBack,
    Read { record: u32 },
    Image,
    Decode { stripe: u32 },
    Recover,
    Explain,
    RecoverTwo,
    ShelfOfTwo { stripe: u32 },
    Powers,
}

/// What a call does with a buffer that it is lent.
#[derive(Clone, Copy, Debug, PartialEq)]
pub enum Use {
    Reads,
    /// It goes by what stands there, and changes it.
    Changes,
    /// What stood there before does not matter.
    Stores,
    /// The same. What it stores are pairs, of which a stored case has every word, under this name.
    StoresPairs(&'static str),
}

/// A row of the table.
pub struct Row {
    pub name: &'static str,
    /// The number of the command that makes the call in the stored cases.
    pub command: u8,
    /// The record or the stripe; 0 where the call is given none.
    pub given: u32,
    /// The numbers that the call can give, in the order of its tests.
    pub numbers: &'static [u32],
    /// The buffers that it is lent. Where it changes several, a stored case has them in this order.
    pub buffers: &'static [(Use, Buffer)],
    /// How many words of the output it is lent.
    pub out: fn(Header) -> usize,
}

impl Call {
    /// How many calls there are.
    pub const COUNT: usize = 12;

    /// Each call once, given this record and this stripe.
    pub fn all(record: u32, stripe: u32) -> [Call; Call::COUNT] {
        [
            Call::Open,
            Call::Write { record },
            Call::Strike { record },
            Call::TakeBack,
            Call::Read { record },
            Call::Image,
            Call::Decode { stripe },
            Call::Recover,
            Call::Explain,
            Call::RecoverTwo,
            Call::ShelfOfTwo { stripe },
            Call::Powers,
        ]
    }

    /// Its place among all.
    pub fn index(self) -> usize {
        let names = Call::all(0, 0).map(Call::name);
        let found = names.iter().position(|&name| name == self.name());
        found.expect("a call of the table")
    }

    /// The same call, given another record or stripe.
    pub fn with(self, given: u32) -> Call {
        Call::all(given, given)[self.index()]
    }

    /// Its row of the table.
    #[rustfmt::skip]
    pub fn row(self) -> Row {
        use Use::{Changes, Reads, Stores, StoresPairs};
        let row = |name, command, given, numbers, buffers, out| Row { name, command, given, numbers, buffers, out };
        let none = |_| 0;
        match self {
            Call::Open => row("open", 5, 0, &[0, 1, 2, 5], &[(Reads, RAW), (Stores, FULL), (Stores, LOG)], none),
            Call::Write { record } => row("write", 6, record, &[0, 1, 2, 4, 5, 11],
                &[(Changes, RAW), (Changes, FULL), (Changes, LOG), (Reads, BLOCK)], none),
            Call::Strike { record } => row("strike", 18, record, &[0, 1, 2, 4], &[(Changes, RAW), (Changes, FULL), (Changes, LOG)], none),
            Call::TakeBack => row("take_back", 14, 0, &[0, 1, 2, 12, 8, 9, 10],
                &[(Changes, RAW), (Reads, FULL), (Changes, LOG), (Stores, DOUBLE_SCRATCH)], none),
            Call::Read { record } => row("read", 7, record, &[0, 1, 2, 4, 14], &[(Reads, RAW)], none),
            Call::Image => row("image", 8, 0, &[0, 1, 2], &[(Reads, FULL), (Reads, LOG), (Stores, IMAGE)], none),
            Call::Decode { stripe } => row("decode", 9, stripe, &[0, 1, 2, 3, 6, 7, 8, 9, 10],
                &[(Reads, IMAGE), (Reads, LIST), (Stores, OUT), (Stores, SCRATCH)], Header::blocks_len),
            Call::Recover => row("recover", 10, 0, &[0, 1, 2, 3, 7, 8, 9, 10],
                &[(Reads, IMAGE), (Reads, LIST), (Stores, OUT), (Stores, SCRATCH)], Header::raw_len),
            Call::Explain => row("explain", 12, 0, &[0, 1, 2, 3, 7, 8, 9, 10],
                &[(Reads, IMAGE), (Reads, LIST), (StoresPairs("counts"), COUNTS), (StoresPairs("origins"), OUT), (Stores, SCRATCH)],
                Header::origins_len),
            Call::RecoverTwo => row("recover_two", 15, 0, &[0, 1, 2, 3, 13, 7, 8, 9, 10],
                &[(Reads, IMAGE), (Reads, LIST), (Reads, IMAGE2), (Reads, LIST2), (Stores, OUT), (Stores, SCRATCH)], Header::raw_len),
            Call::ShelfOfTwo { stripe } => row("shelf_of_two", 16, stripe, &[0, 1, 2, 3, 13, 6],
                &[(Reads, IMAGE), (Reads, LIST), (Reads, IMAGE2), (Reads, LIST2)], none),
            Call::Powers => row("powers", 13, 0, &[0, 2], &[(Stores, OUT)], |_| ENTRIES),
        }
    }

    pub fn name(self) -> &'static str {
        self.row().name
    }

    /// The buffers that the call is lent, with what it does with them.
    pub fn buffers(self) -> impl Iterator<Item = (Use, Buffer)> {
        self.row().buffers.iter().copied()
    }

    /// Whether the call can give this number.
    pub fn gives(self, number: u32) -> bool {
        self.row().numbers.contains(&number)
    }
}

/// What a call answers.
#[derive(Clone, Copy, Debug, Default, PartialEq)]
pub struct Answer {
    pub number: u32,
    /// The header that opening, writing, striking and taking back give.
    pub header: Option<Header>,
    /// The stripe at fault, where a call names one.
    pub stripe: Option<u32>,
    /// The part of the raw buffer that reading gives, as start and count: 0 and 0 where it is refused.
    pub part: Option<(usize, usize)>,
    /// Where a stripe of two readings stands.
    pub place: Option<Place>,
}

impl Answer {
    /// The answer of a call that gives a number and nothing else.
    pub fn of(number: u32) -> Answer {
        Answer {
            number,
            ..Answer::default()
        }
    }
}
