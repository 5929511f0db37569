//! Images: the full stripe and then the log, each word 4 bytes, low byte first.
use crate::header::Header;
use crate::refusal::{number, test, Refusal};

/// Stores the image of the buffers, and gives the number.
pub fn image(header: Header, full: &[u32], log: &[u32], image: &mut [u8]) -> u32 {
    let tested = tests(header, full, log, image);
    if tested.is_ok() {
        for (bytes, word) in image.chunks_mut(4).zip(full.iter().chain(log)) {
            bytes.copy_from_slice(&word.to_le_bytes());
        }
    }
    number(&tested)
}

fn tests(header: Header, full: &[u32], log: &[u32], image: &[u8]) -> Result<(), Refusal> {
    header.test()?;
    let fit = full.len() == header.full_len()
        && log.len() == header.log_len()
        && image.len() == header.image_len();
    test(fit, Refusal::Length)
}

/// The number in 4 bytes, low byte first.
pub fn number_at(bytes: &[u8], at: usize) -> u32 {
    (0..4).map(|i| u32::from(bytes[at + i]) << (8 * i)).sum()
}

/// `count` words of an image from word `start` on.
pub fn words(image: &[u8], start: usize, count: usize) -> Vec<u64> {
    (start..start + count)
        .map(|i| u64::from(number_at(image, 4 * i)))
        .collect()
}
