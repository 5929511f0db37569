//! Opening: the full stripe built from raw records.
use crate::field::P;
use crate::header::Header;
use crate::record::are_a_record;
use crate::refusal::{number, test, Refusal};
use crate::stripe::code;

/// The number, and the header afterwards: 0, 0, 0 where the opening is refused.
pub fn open(k: u32, s: u32, raw: &[u32], full: &mut [u32], log: &mut [u32]) -> (u32, Header) {
    let header = Header { k, s, c: 0 };
    let tested = tests(header, raw, full, log);
    if tested.is_err() {
        return (number(&tested), Header::default());
    }
    build(header, raw, full);
    log.fill(0);
    (0, header)
}

fn tests(header: Header, raw: &[u32], full: &[u32], log: &[u32]) -> Result<(), Refusal> {
    header.test()?;
    lengths(header, raw, full, log)?;
    let mut records = raw.chunks(header.data());
    test(records.all(are_a_record), Refusal::DataWord)
}

/// The test of the three buffers' lengths.
pub fn lengths(header: Header, raw: &[u32], full: &[u32], log: &[u32]) -> Result<(), Refusal> {
    let fit = raw.len() == header.raw_len()
        && full.len() == header.full_len()
        && log.len() == header.log_len();
    test(fit, Refusal::Length)
}

/// The full stripe codes the raw records in number order, as if record i were write i. Raw words count modulo p.
pub fn build(header: Header, raw: &[u32], full: &mut [u32]) {
    let mut blocks = Vec::new();
    for (i, record) in raw.chunks(header.data()).enumerate() {
        blocks.push(i as u64);
        blocks.extend(record.iter().map(|&x| u64::from(x) % P));
    }
    let coded = code(header.k, 0, header.width(), &blocks);
    assert_eq!(coded.len(), full.len());
    for (to, x) in full.iter_mut().zip(coded) {
        *to = x as u32;
    }
}

#[cfg(test)]
mod tests {
    use super::*;

    /// The number of an opening of k = 1.
    fn opened(s: u32, raw: &[u32]) -> u32 {
        let header = Header { k: 1, s, c: 0 };
        let (mut full, mut log) = (vec![9; header.full_len()], vec![9; header.log_len()]);
        let (number, given) = open(1, s, raw, &mut full, &mut log);
        let taken = number == 0;
        assert_eq!(given, if taken { header } else { Header::default() });
        assert_eq!(log[0], if taken { 0 } else { 9 });
        number
    }

    #[test]
    fn each_record_is_data_words_or_struck() {
        for (s, raw) in [
            (2, &[65536, 65536, 0, 0][..]),
            (2, &[65535, 0, 65536, 65536]),
            (2, &[65536; 4]),
            (1, &[65536, 7]),
            (1, &[7, 65536]),
        ] {
            assert_eq!(opened(s, raw), 0, "{raw:?}");
        }
        for (s, raw) in [
            (2, &[65536, 0, 0, 0][..]),
            (2, &[0, 0, 7, 65536]),
            (2, &[0, 65536, 65536, 0]),
            (2, &[65536, 65536, 65536, 65537]),
            (2, &[131_073, 131_073, 0, 0]),
            (1, &[7, 131_073]),
            (1, &[65537, 7]),
        ] {
            assert_eq!(opened(s, raw), 5, "{raw:?}");
        }
    }

    #[test]
    fn zero_records_are_taken() {
        for (k, s) in [(1, 1), (2, 3), (5, 2)] {
            let header = Header { k, s, c: 0 };
            let raw = vec![0; header.raw_len()];
            let (mut full, mut log) = (vec![9; header.full_len()], vec![9; header.log_len()]);
            assert_eq!(open(k, s, &raw, &mut full, &mut log), (0, header));
            // The numbers are coded, and the data are zeros in every column.
            for position in full.chunks(header.width()) {
                assert!(position[1..].iter().all(|&x| x == 0));
            }
            assert!(full.chunks(header.width()).any(|position| position[0] != 0));
            assert!(log.iter().all(|&x| x == 0));
        }
    }
}
