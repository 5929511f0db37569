//! The worked examples of docs/FORMAT.md, P1 to P12: k = 2, s = 1.
use reference::decode::decode;
use reference::header::Header;
use reference::image::image;
use reference::opening::open;
use reference::recovery::{decode_stripe, recover};
use reference::stripe::code_column;
use reference::writing::write;

/// Buffers of zero records, just opened.
struct Vault {
    header: Header,
    raw: [u32; 4],
    full: [u32; 16],
    log: [u32; 12],
}

fn opened() -> Vault {
    let raw = [0; 4];
    let (mut full, mut log) = ([9; 16], [9; 12]);
    let (number, header) = open(2, 1, &raw, &mut full, &mut log);
    assert_eq!((number, header), (0, Header { k: 2, s: 1, c: 0 }));
    Vault {
        header,
        raw,
        full,
        log,
    }
}

impl Vault {
    fn write(&mut self, record: u32, word: u32) -> u32 {
        let (raw, full, log) = (&mut self.raw, &mut self.full, &mut self.log);
        let (number, header) = write(self.header, raw, full, log, record, &[word]);
        self.header = header;
        number
    }

    fn image(&self) -> [u8; 112] {
        let mut bytes = [0; 112];
        assert_eq!(image(self.header, &self.full, &self.log, &mut bytes), 0);
        bytes
    }

    fn recover(&self, gaps: &[(u32, u32)]) -> (u32, Option<u32>, [u32; 4]) {
        let (mut out, mut scratch) = ([9; 4], [9; 24]);
        let answer = recover(
            self.header,
            &self.image(),
            &list(gaps),
            &mut out,
            &mut scratch,
        );
        assert_eq!(
            scratch,
            [if (1..=3).contains(&answer.0) { 9 } else { 0 }; 24]
        );
        (answer.0, answer.1, out)
    }
}

fn list(gaps: &[(u32, u32)]) -> Vec<u8> {
    let bytes = |&(offset, length): &(u32, u32)| [offset.to_le_bytes(), length.to_le_bytes()];
    gaps.iter().flat_map(bytes).flatten().collect()
}

#[test]
fn p1_p2_p3_coding() {
    assert_eq!(code_column(2, 0, &[1, 2]), [3, 65536, 65026, 513]);
    assert_eq!(code_column(2, 2, &[3]), [3, 12288]);
    assert_eq!(
        code_column(2, 0, &[1, 2, 3, 4]),
        [10, 255, 65533, 65280, 11841, 16945, 52674, 49618]
    );
}

#[test]
fn p4_decoding() {
    let erased = [true, true, false, false];
    let decoded = decode(2, 0, 1, &erased, &[0, 0, 65026, 513]);
    assert_eq!(decoded, Ok(vec![1, 2]));
}

#[test]
fn p5_first_writes() {
    let header = Header { k: 2, s: 1, c: 3 };
    assert_eq!((header.first(1), header.first(0)), (0, 2));
}

#[test]
fn p6_the_newer_write_counts() {
    let mut vault = opened();
    assert_eq!((vault.write(0, 1), vault.write(0, 2)), (0, 0));
    assert_eq!(vault.recover(&[]), (0, None, [2, 0, 0, 0]));
}

#[test]
fn p7_too_few() {
    let vault = opened();
    assert_eq!(vault.recover(&[(0, 32)]), (0, None, [0; 4]));
    assert_eq!(vault.recover(&[(0, 33)]), (7, Some(2), [0; 4]));
}

#[test]
fn p8_p9_gap_lists() {
    let vault = opened();
    assert_eq!(vault.recover(&[(0, 8), (9, 8)]).0, 0);
    assert_eq!(vault.recover(&[(0, 8), (8, 8)]), (3, None, [9; 4]));
    assert_eq!(vault.recover(&[(104, 8)]).0, 0);
    assert_eq!(vault.recover(&[(104, 9)]), (3, None, [9; 4]));
}

/// Level 0 decoded at c = 3 from these words.
fn level_0(words: [u32; 4]) -> u32 {
    let header = Header { k: 2, s: 1, c: 3 };
    let mut bytes = [0; 112];
    for (i, word) in words.iter().enumerate() {
        bytes[64 + 4 * i..68 + 4 * i].copy_from_slice(&word.to_le_bytes());
    }
    let (mut out, mut scratch) = ([9; 8], [9; 24]);
    let number = decode_stripe(header, &bytes, &[], 0, &mut out, &mut scratch);
    assert_eq!(scratch, [0; 24]);
    assert!(number == 0 || out == [0; 8]);
    number
}

#[test]
fn p10_p11_inconsistent_and_not_a_record() {
    assert_eq!(level_0([2, 3, 8192, 12288]), 0);
    assert_eq!(level_0([2, 3, 8192, 12289]), 9);
    assert_eq!(level_0([4, 3, 16384, 12288]), 10);
}

#[test]
fn p12_data_words() {
    let mut vault = opened();
    assert_eq!((vault.write(0, 65535), vault.write(0, 65536)), (0, 5));
    assert_eq!((vault.header.c, vault.raw), (1, [65535, 0, 0, 0]));
}
