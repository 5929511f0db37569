//! The worked examples of docs/FORMAT.md, P1 to P12, through the library's calls: k = 2, s = 1.
use vault_library::{calls, erasures, sizes, stripes, Fault, Header, Record, Refusal, Vault};

/// The data words of a stripe in an image.
fn column(image: &[u8], stripe: u32) -> Vec<u32> {
    (0..stripes::positions(stripe))
        .filter_map(|i| stripes::words(image, stripes::position(2, 1, stripe, i)).nth(1))
        .collect()
}

/// A vault opened with some records, after some writes to record 0.
fn written(records: [u32; 4], blocks: &[u32]) -> Vault {
    let mut vault = Vault::open(2, 1, records.to_vec()).unwrap();
    for &word in blocks {
        vault.write(0, &[word]).unwrap();
    }
    vault
}

/// Pairs of offset and length as an erasure list, whether it keeps the rules or not.
fn pairs(numbers: &[u32]) -> Vec<u8> {
    numbers.iter().flat_map(|x| x.to_le_bytes()).collect()
}

fn recovered(header: Header, image: &[u8], erasures: &[u8]) -> Result<Vec<u32>, Fault> {
    let mut records = vec![9; sizes::raw(2, 1)];
    let mut scratch = vec![9; sizes::scratch(2, 1)];
    let answer = calls::recover(header, image, erasures, &mut records, &mut scratch);
    let tested = answer.is_err_and(|fault| fault.stripe.is_none());
    let left = if tested { 9 } else { 0 };
    assert!(scratch.iter().all(|&word| word == left));
    if answer.is_err() {
        assert!(records.iter().all(|&word| word == left));
    }
    answer.map(|()| records)
}

fn decoded(
    header: Header,
    image: &[u8],
    erasures: &[u8],
    stripe: u32,
) -> Result<Vec<u32>, Refusal> {
    let mut blocks = vec![9; sizes::blocks(2, 1)];
    let mut scratch = vec![9; sizes::scratch(2, 1)];
    calls::decode(header, image, erasures, stripe, &mut blocks, &mut scratch).map(|()| blocks)
}

#[test]
fn p1_and_p4_two_writes_on_level_1() {
    let vault = written([0; 4], &[1, 2]);
    let (header, image) = (vault.header(), vault.image().unwrap());
    assert_eq!(column(&image, 1), [3, 65536, 65026, 513]);
    let lost = (0..2).map(|i| stripes::position(2, 1, 1, i)).collect();
    let blocks = decoded(header, &image, &erasures::list(lost), 1);
    assert_eq!(blocks, Ok(vec![0, 1, 0, 2, 0, 0, 0, 0]));
}

#[test]
fn p2_and_p5_the_third_write_on_level_0() {
    let vault = written([0; 4], &[1, 2, 3]);
    assert_eq!(vault.header(), Header { k: 2, s: 1, c: 3 });
    assert_eq!(column(&vault.image().unwrap(), 0), [3, 12288]);
}

#[test]
fn p3_the_full_stripe() {
    let image = written([1, 2, 3, 4], &[]).image().unwrap();
    let expected = [10, 255, 65533, 65280, 11841, 16945, 52674, 49618];
    assert_eq!(column(&image, 2), expected);
}

#[test]
fn p6_a_newer_write_covers_an_older_one() {
    let vault = written([0; 4], &[1, 2]);
    let records = recovered(vault.header(), &vault.image().unwrap(), &[]);
    assert_eq!(records, Ok(vec![2, 0, 0, 0]));
    assert_eq!(vault.read(0), Ok(Record::Words(&[2])));
    assert_eq!(vault.read(4), Err(Refusal::Record));
}

#[test]
fn p7_to_p9_erasure_lists() {
    let vault = written([0; 4], &[]);
    let image = vault.image().unwrap();
    let recovered = |numbers: &[u32]| recovered(vault.header(), &image, &pairs(numbers));
    let zeros = Ok(vec![0; 4]);
    let fault = |refusal, stripe| Err(Fault { refusal, stripe });
    assert_eq!(recovered(&[0, 32]), zeros);
    assert_eq!(recovered(&[0, 33]), fault(Refusal::TooFew, Some(2)));
    assert_eq!(recovered(&[0, 8, 9, 8]), zeros);
    assert_eq!(recovered(&[0, 8, 8, 8]), fault(Refusal::Erasures, None));
    assert_eq!(recovered(&[104, 8]), zeros);
    assert_eq!(recovered(&[104, 9]), fault(Refusal::Erasures, None));
}

#[test]
fn p10_and_p11_words_that_are_no_records() {
    let vault = written([0; 4], &[1, 2, 3]);
    let mut image = vault.image().unwrap();
    let mut level_0 = |words: [u32; 4]| {
        image[64..80].copy_from_slice(&pairs(&words));
        decoded(vault.header(), &image, &[], 0)
    };
    assert_eq!(level_0([2, 3, 8192, 12289]), Err(Refusal::Inconsistent));
    assert_eq!(level_0([4, 3, 16384, 12288]), Err(Refusal::NotARecord));
    assert_eq!(level_0([2, 3, 8192, 65537]), Err(Refusal::OutOfField));
    let block = vec![2, 3, 0, 0, 0, 0, 0, 0];
    assert_eq!(level_0([2, 3, 8192, 12288]), Ok(block));
}

#[test]
fn p12_the_largest_data_word() {
    let mut vault = written([0; 4], &[]);
    assert_eq!(vault.write(0, &[65536]), Err(Refusal::DataWord));
    assert_eq!(vault.header().c, 0);
    assert_eq!(vault.write(0, &[65535]), Ok(()));
    assert_eq!(vault.header().c, 1);
}

#[test]
fn headers_and_lengths_are_the_library_s_to_judge() {
    assert_eq!(Vault::open(11, 1, Vec::new()).err(), Some(Refusal::Header));
    assert_eq!(Vault::open(2, 1, vec![0; 5]).err(), Some(Refusal::Length));
    let mut vault = written([0; 4], &[1]);
    assert_eq!(vault.write(0, &[1, 2]), Err(Refusal::Length));
    let (header, image) = (vault.header(), vault.image().unwrap());
    let length = |fault: Fault| (fault.refusal, fault.stripe);
    for bytes in [&image[1..], &[]] {
        let answer = recovered(header, bytes, &[]).map_err(length);
        assert_eq!(answer, Err((Refusal::Length, None)));
    }
    assert_eq!(decoded(header, &image, &[], 1), Err(Refusal::Stripe));
    let far = Header { c: 4, ..header };
    assert_eq!(calls::read(far, &[0; 4], 0), Err(Refusal::Header));
    assert_eq!(calls::image(far, &[], &[], &mut []), Err(Refusal::Header));
}
