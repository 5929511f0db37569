//! Both implementations side by side: each call is made of either, over buffers that are equal before it and must be after it.
use crate::by_library;
use crate::guarded::{guarded, lend_output};
use reference::by_reference;
use reference::calls::{Answer, Call, Use};
use reference::header::Header;
use reference::lent::{Buffer, Bytes, Lender, Lent};

#[derive(Clone)]
pub struct Both {
    library: Lender,
    reference: Lender,
}

impl Both {
    /// Buffers of the lengths that the header asks for, between guards of so many elements.
    pub fn new(header: Header, guard: usize) -> Both {
        let lender = guarded(header, guard);
        Both {
            library: lender.clone(),
            reference: lender,
        }
    }

    /// What both are lent.
    pub fn lent(&self) -> &Lender {
        &self.reference
    }

    /// Changes what both are lent, alike.
    pub fn set(&mut self, change: impl Fn(&mut Lender)) {
        change(&mut self.library);
        change(&mut self.reference);
    }

    /// Lends the output at the length that the call asks for.
    pub fn lend_output(&mut self, call: Call) {
        self.set(|lender| lend_output(lender, call));
    }

    /// Fills the buffers that a call stores to with what it must not keep.
    pub fn soil(&mut self, call: Call, first: u32) {
        for (used, buffer) in call.buffers() {
            if matches!(used, Use::Stores | Use::StoresPairs(_)) {
                self.set(|lender| fill(lender, buffer, first));
            }
        }
    }

    /// Makes the call of both, over what they are lent. Gives the answer, or what differs.
    pub fn call(&mut self, call: Call) -> Result<Answer, String> {
        let header = self.lent().header;
        let ours = by_library::call(&mut self.library, call);
        let theirs = by_reference::call(&mut self.reference, call);
        if ours == theirs && self.library == self.reference {
            return Ok(ours);
        }
        let differences = differences(&self.library, &self.reference);
        Err(format!(
            "{call:?} at {header:?}\n  library   {ours:?}\n  reference {theirs:?}\n{differences}"
        ))
    }

    /// A write of a vault of before number 11, which the library no longer makes: reference/ makes it over the buffers of both. Gives its number.
    pub fn earlier_write(&mut self, record: u32) -> u32 {
        by_reference::earlier_write(&mut self.library, record);
        by_reference::earlier_write(&mut self.reference, record).number
    }
}

/// Fills what is lent of a buffer: with words each of which is another, or with a byte.
fn fill(lender: &mut Lender, buffer: Buffer, first: u32) {
    let words = match buffer {
        Buffer::Words(words) => lender.words_mut(words).part_mut(),
        Buffer::Bytes(bytes) => return lender.bytes_mut(bytes).part_mut().fill(first as u8),
    };
    let mut word = first;
    for x in words {
        *x = word;
        word = word.wrapping_add(0x9e37_79b9);
    }
}

/// The first place at which each of the library's buffers differs from that of reference/.
fn differences(ours: &Lender, theirs: &Lender) -> String {
    let mut text = String::new();
    if ours.header != theirs.header {
        text += &format!("  headers {:?} and {:?}\n", ours.header, theirs.header);
    }
    for buffer in Buffer::ALL {
        text += &difference(buffer, &ours.numbers(buffer), &theirs.numbers(buffer));
    }
    text
}

/// A line that says where the library's and the reference's numbers differ; nothing if they don't.
fn difference(buffer: Buffer, ours: &Lent<u32>, theirs: &Lent<u32>) -> String {
    let mut pairs = ours
        .all
        .iter()
        .zip(&theirs.all)
        .enumerate()
        .filter(|(_, (x, y))| x != y);
    let Some((i, (x, y))) = pairs.next() else {
        return String::new();
    };
    let (name, place) = (buffer.name(), i as i64 - ours.start as i64);
    let more = pairs.count();
    format!("  {name}[{place}] is {x} and {y}; {more} more places differ\n")
}

/// Numbers and buffers, those of many words by a checksum.
pub fn describe(lender: &Lender) -> String {
    let Header { k, s, c } = lender.header;
    let mut text = format!("  header k = {k}, s = {s}, c = {c}\n");
    for buffer in Buffer::ALL {
        text += &match buffer {
            Buffer::Bytes(Bytes::List | Bytes::List2) => list(lender, buffer),
            _ => line(&buffer.name(), lender.numbers(buffer).part()),
        };
    }
    text
}

/// Lines with the numbers of an erasure list, and with the bytes that are no whole number.
fn list(lender: &Lender, buffer: Buffer) -> String {
    let bytes = lender.numbers(buffer);
    let (whole, rest) = bytes.part().as_chunks();
    let number = |bytes: &[u32; 4]| u32::from_le_bytes(bytes.map(|x| x as u8));
    let numbers: Vec<u32> = whole.iter().map(number).collect();
    line(&buffer.name(), &numbers) + &line("and bytes", rest)
}

/// A line with the numbers, of more than 128 only the first and a checksum (FNV-1a).
fn line(name: &str, numbers: &[u32]) -> String {
    let list = |part: &[u32]| part.iter().map(|x| format!(" {x}")).collect::<String>();
    let count = numbers.len();
    if count <= 128 {
        return format!("  {name} ({count}):{}\n", list(numbers));
    }
    let sum = numbers.iter().fold(0xcbf2_9ce4_8422_2325, |sum: u64, &x| {
        (sum ^ u64::from(x)).wrapping_mul(0x100_0000_01b3)
    });
    format!(
        "  {name} ({count}, sum {sum:016x}):{} ..\n",
        list(&numbers[..16])
    )
}
