//! What one implementation is lent: buffers between guards that no call may touch.
use reference::calls::Call;
use reference::header::Header;
use reference::lent::{Bytes, Lender, Lent, Words, OUT};

/// What a guard holds.
const WORD: u32 = 0x9e37_79b9;
const BYTE: u8 = 0xa5;

/// Buffers of the lengths that the header asks for, all zeros; of the output nothing is lent yet, nor of the erasure lists. Guards of 3 elements also take the
/// buffers off the boundaries of 16 bytes, and bytes off those of words.
pub fn guarded(header: Header, guard: usize) -> Lender {
    let words = |_| Lent::new(vec![WORD; 2 * guard], guard);
    let bytes = |_| Lent::new(vec![BYTE; 2 * guard], guard);
    let mut lender = Lender::new(header, words, bytes);
    for (words, length) in [
        (Words::Raw, header.raw_len()),
        (Words::Full, header.full_len()),
        (Words::Log, header.log_len()),
        (Words::Block, header.data()),
        (Words::Scratch, header.scratch_len()),
        (Words::Counts, header.counts_len()),
        (Words::DoubleScratch, header.double_scratch_len()),
    ] {
        lender.words_mut(words).resize(length, 0);
    }
    for image in [Bytes::Image, Bytes::Image2] {
        lender.bytes_mut(image).resize(header.image_len(), 0);
    }
    lender
}

/// Lends the output at the length that a call asks for, if it stores to it.
pub fn lend_output(lender: &mut Lender, call: Call) {
    if call.buffers().any(|(_, buffer)| buffer == OUT) {
        let length = (call.row().out)(lender.header);
        lender.out.resize(length, 0);
    }
}
