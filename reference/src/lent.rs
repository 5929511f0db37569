//! What a caller of the vault lends: a header, and buffers of which each call is lent a part.
use crate::header::Header;
use std::mem;

/// Buffers of words. By their numbers the stored cases name all but the last two: the counts, for which the command of an explanation lends, and the double
/// scratch, for which that of a taking-back does. Decoding, recovery and the table of powers store to `Out`, and an explanation its origins.
#[derive(Clone, Copy, Debug, PartialEq)]
pub enum Words {
    Raw,
    Full,
    Log,
    Block,
    Out,
    Scratch,
    Counts,
    DoubleScratch,
}

/// Buffers of bytes, by number. `List` has the erasure list; a listing reads its input from it, and puts its text into `Image`. The other two are the second of
/// two readings.
#[derive(Clone, Copy, Debug, PartialEq)]
pub enum Bytes {
    Image,
    List,
    Image2,
    List2,
}

#[derive(Clone, Copy, Debug, PartialEq)]
pub enum Buffer {
    Words(Words),
    Bytes(Bytes),
}

pub const RAW: Buffer = Buffer::Words(Words::Raw);
pub const FULL: Buffer = Buffer::Words(Words::Full);
pub const LOG: Buffer = Buffer::Words(Words::Log);
pub const BLOCK: Buffer = Buffer::Words(Words::Block);
pub const OUT: Buffer = Buffer::Words(Words::Out);
pub const SCRATCH: Buffer = Buffer::Words(Words::Scratch);
pub const COUNTS: Buffer = Buffer::Words(Words::Counts);
pub const DOUBLE_SCRATCH: Buffer = Buffer::Words(Words::DoubleScratch);
pub const IMAGE: Buffer = Buffer::Bytes(Bytes::Image);
pub const LIST: Buffer = Buffer::Bytes(Bytes::List);
pub const IMAGE2: Buffer = Buffer::Bytes(Bytes::Image2);
pub const LIST2: Buffer = Buffer::Bytes(Bytes::List2);

impl Buffer {
    #[rustfmt::skip]
    pub const ALL: [Buffer; 12] = [RAW, FULL, LOG, BLOCK, OUT, SCRATCH, COUNTS, DOUBLE_SCRATCH, IMAGE, LIST, IMAGE2, LIST2];

    /// The name in the document, where each call has one scratch; those of the second of two readings have none there.
    pub fn name(self) -> String {
        match self {
            DOUBLE_SCRATCH => SCRATCH.name(),
            Buffer::Words(words) => format!("{words:?}").to_lowercase(),
            Buffer::Bytes(bytes) => format!("{bytes:?}").to_lowercase(),
        }
    }
}

/// A buffer of which a part is lent. What stands before and behind that part is nothing that a call may touch.
#[derive(Clone, PartialEq)]
pub struct Lent<T> {
    pub all: Vec<T>,
    /// Where the part begins.
    pub start: usize,
    end: usize,
}

impl<T: Copy> Lent<T> {
    /// The buffer, of which nothing is lent yet: the part will stand after so many elements.
    pub fn new(all: Vec<T>, start: usize) -> Lent<T> {
        Lent {
            all,
            start,
            end: start,
        }
    }

    pub fn part(&self) -> &[T] {
        &self.all[self.start..self.end]
    }

    pub fn part_mut(&mut self) -> &mut [T] {
        &mut self.all[self.start..self.end]
    }

    /// Lends so many of the elements that stand there.
    pub fn lend(&mut self, count: usize) {
        self.end = self.start + count;
    }

    /// Lends these elements instead, in memory that has room for them, and for what stands before and behind, alone.
    pub fn set(&mut self, part: &[T]) {
        let (before, behind) = (&self.all[..self.start], &self.all[self.end..]);
        let mut all = Vec::with_capacity(before.len() + part.len() + behind.len());
        all.extend_from_slice(before);
        all.extend_from_slice(part);
        all.extend_from_slice(behind);
        self.all = all;
        self.lend(part.len());
    }

    /// Lends `count` elements: the first of those before, and then `with`.
    pub fn resize(&mut self, count: usize, with: T) {
        let mut part = self.part().to_vec();
        part.resize(count, with);
        self.set(&part);
    }
}

/// All that a caller lends.
#[derive(Clone, PartialEq)]
pub struct Lender {
    pub header: Header,
    pub raw: Lent<u32>,
    pub full: Lent<u32>,
    pub log: Lent<u32>,
    pub block: Lent<u32>,
    pub out: Lent<u32>,
    pub scratch: Lent<u32>,
    pub counts: Lent<u32>,
    pub double_scratch: Lent<u32>,
    pub image: Lent<u8>,
    pub list: Lent<u8>,
    pub image2: Lent<u8>,
    pub list2: Lent<u8>,
}

impl Lender {
    /// A lender of buffers that are made so.
    pub fn new<W, B>(header: Header, words: W, bytes: B) -> Lender
    where
        W: Fn(Words) -> Lent<u32>,
        B: Fn(Bytes) -> Lent<u8>,
    {
        Lender {
            header,
            raw: words(Words::Raw),
            full: words(Words::Full),
            log: words(Words::Log),
            block: words(Words::Block),
            out: words(Words::Out),
            scratch: words(Words::Scratch),
            counts: words(Words::Counts),
            double_scratch: words(Words::DoubleScratch),
            image: bytes(Bytes::Image),
            list: bytes(Bytes::List),
            image2: bytes(Bytes::Image2),
            list2: bytes(Bytes::List2),
        }
    }

    pub fn words(&self, buffer: Words) -> &Lent<u32> {
        match buffer {
            Words::Raw => &self.raw,
            Words::Full => &self.full,
            Words::Log => &self.log,
            Words::Block => &self.block,
            Words::Out => &self.out,
            Words::Scratch => &self.scratch,
            Words::Counts => &self.counts,
            Words::DoubleScratch => &self.double_scratch,
        }
    }

    pub fn words_mut(&mut self, buffer: Words) -> &mut Lent<u32> {
        match buffer {
            Words::Raw => &mut self.raw,
            Words::Full => &mut self.full,
            Words::Log => &mut self.log,
            Words::Block => &mut self.block,
            Words::Out => &mut self.out,
            Words::Scratch => &mut self.scratch,
            Words::Counts => &mut self.counts,
            Words::DoubleScratch => &mut self.double_scratch,
        }
    }

    pub fn bytes(&self, buffer: Bytes) -> &Lent<u8> {
        match buffer {
            Bytes::Image => &self.image,
            Bytes::List => &self.list,
            Bytes::Image2 => &self.image2,
            Bytes::List2 => &self.list2,
        }
    }

    pub fn bytes_mut(&mut self, buffer: Bytes) -> &mut Lent<u8> {
        match buffer {
            Bytes::Image => &mut self.image,
            Bytes::List => &mut self.list,
            Bytes::Image2 => &mut self.image2,
            Bytes::List2 => &mut self.list2,
        }
    }

    /// Makes the second of two readings the first, and the first the second.
    pub fn exchange(&mut self) {
        mem::swap(&mut self.image, &mut self.image2);
        mem::swap(&mut self.list, &mut self.list2);
    }

    /// A buffer with its bytes as numbers.
    pub fn numbers(&self, buffer: Buffer) -> Lent<u32> {
        let bytes = match buffer {
            Buffer::Words(words) => return self.words(words).clone(),
            Buffer::Bytes(bytes) => self.bytes(bytes),
        };
        Lent {
            all: bytes.all.iter().map(|&x| u32::from(x)).collect(),
            start: bytes.start,
            end: bytes.end,
        }
    }
}
