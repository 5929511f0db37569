//! Stripe decoding and recovery out of an image.
use crate::decode::decode;
use crate::erasures::{erased, gaps, Gap};
use crate::header::Header;
use crate::image::words;
use crate::record::are_a_record;
use crate::refusal::{number, test, Refusal};

/// Decodes one stripe: a level, or k for the full stripe. Gives the number.
pub fn decode_stripe(
    header: Header,
    image: &[u8],
    list: &[u8],
    stripe: u32,
    out: &mut [u32],
    scratch: &mut [u32],
) -> u32 {
    let tested = stripe_tests(header, image, list, stripe, out, scratch);
    let Ok(gaps) = tested else {
        return number(&tested);
    };
    out.fill(0);
    scratch.fill(0);
    let decoded = blocks(header, image, &gaps, stripe);
    for (to, x) in out.iter_mut().zip(decoded.iter().flatten()) {
        *to = *x as u32;
    }
    number(&decoded)
}

/// Recovers all records. Gives the number, and the stripe at fault where one is named.
pub fn recover(
    header: Header,
    image: &[u8],
    list: &[u8],
    out: &mut [u32],
    scratch: &mut [u32],
) -> (u32, Option<u32>) {
    let tested = recovery_tests(header, image, list, out, scratch);
    let Ok(gaps) = tested else {
        return (number(&tested), None);
    };
    let decoded = |stripe| blocks(header, image, &gaps, stripe);
    lay(header, decoded, out, scratch)
}

/// Lays the blocks of each needed stripe, decoded in the order of recovery. Gives the number, and the stripe at fault where one is named.
pub(crate) fn lay(
    header: Header,
    blocks_of: impl Fn(u32) -> Result<Vec<u64>, Refusal>,
    out: &mut [u32],
    scratch: &mut [u32],
) -> (u32, Option<u32>) {
    out.fill(0);
    scratch.fill(0);
    let filled = (0..=header.k).rev().filter(|&stripe| header.filled(stripe));
    for stripe in filled {
        let decoded = blocks_of(stripe);
        let Ok(blocks) = &decoded else {
            out.fill(0);
            return (number(&decoded), Some(stripe));
        };
        for block in blocks.chunks(header.width()) {
            let start = block[0] as usize * header.data();
            for (to, x) in out[start..].iter_mut().zip(&block[1..]) {
                *to = *x as u32;
            }
        }
    }
    (0, None)
}

/// Tests 1 to 3 and 6.
fn stripe_tests(
    header: Header,
    image: &[u8],
    list: &[u8],
    stripe: u32,
    out: &[u32],
    scratch: &[u32],
) -> Result<Vec<Gap>, Refusal> {
    header.test()?;
    test(out.len() == header.blocks_len(), Refusal::Length)?;
    let gaps = image_tests(header, image, list, scratch)?;
    test(header.filled(stripe), Refusal::Stripe)?;
    Ok(gaps)
}

/// Tests 1 to 3.
fn recovery_tests(
    header: Header,
    image: &[u8],
    list: &[u8],
    out: &[u32],
    scratch: &[u32],
) -> Result<Vec<Gap>, Refusal> {
    header.test()?;
    test(out.len() == header.raw_len(), Refusal::Length)?;
    image_tests(header, image, list, scratch)
}

/// The tests that all calls on images make, after that of the header.
pub(crate) fn image_tests(
    header: Header,
    image: &[u8],
    list: &[u8],
    scratch: &[u32],
) -> Result<Vec<Gap>, Refusal> {
    let fit = image.len() == header.image_len() && scratch.len() == header.scratch_len();
    test(fit, Refusal::Length)?;
    gaps(list, image.len())
}

/// The blocks of a stripe in order of time; tests 7 to 10.
pub(crate) fn blocks(
    header: Header,
    image: &[u8],
    gaps: &[Gap],
    stripe: u32,
) -> Result<Vec<u64>, Refusal> {
    let count = (2 << stripe) * header.width();
    let words = words(image, header.stripe_start(stripe), count);
    records(header, stripe, &erased(header, stripe, gaps), &words)
}

/// The blocks of a stripe of these words, of which positions are erased; tests 7 to 10.
pub(crate) fn records(
    header: Header,
    stripe: u32,
    erased: &[bool],
    words: &[u64],
) -> Result<Vec<u64>, Refusal> {
    let width = header.width();
    let blocks = decode(header.k, header.first(stripe), width, erased, words)?;
    let is_record = |(place, block): (usize, &[u64])| {
        let number = block[0] as usize;
        number < header.records()
            && (stripe != header.k || number == place)
            && are_a_record(&block[1..])
    };
    let all = blocks.chunks(width).enumerate().all(is_record);
    test(all, Refusal::NotARecord)?;
    Ok(blocks)
}
