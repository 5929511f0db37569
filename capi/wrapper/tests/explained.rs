//! What explaining says of an image, beside what recovery does with it.
use vault_library::{
    calls, erasures, sizes, stripes, Count, Explanation, Fault, Header, Origin, Refusal, Vault,
};

/// The image of docs/FORMAT.md, section 12: k = 2, s = 2, and after three writes c = 3.
fn example() -> (Header, Vec<u8>) {
    let records = vec![10, 11, 20, 21, 30, 31, 40, 65535];
    let mut vault = Vault::open(2, 2, records).unwrap();
    for (record, block) in [(2, [1, 2]), (3, [3, 4]), (2, [5, 65535])] {
        vault.write(record, &block).unwrap();
    }
    (vault.header(), vault.image().unwrap())
}

/// The erasure list of some positions, each a stripe and a number.
fn lost(header: Header, positions: &[(u32, usize)]) -> Vec<u8> {
    let Header { k, s, .. } = header;
    let bytes = |&(stripe, position)| stripes::position(k, s, stripe, position);
    erasures::list(positions.iter().map(bytes).collect())
}

/// Stripe, positions left and shortfall of each needed stripe.
fn counted(counts: &[Count]) -> Vec<(u32, u32, u32)> {
    let triple = |count: &Count| {
        assert_eq!(count.needed, 1 << count.stripe);
        (count.stripe, count.left, count.shortfall)
    };
    counts.iter().map(triple).collect()
}

#[test]
fn each_record_comes_from_its_last_write() {
    let (header, image) = example();
    let positions = [(2, 0), (2, 1), (2, 2), (2, 7), (0, 0), (1, 0), (1, 1)];
    let level = |stripe, write| Origin::Level { stripe, write };
    let origins = vec![Origin::Full, Origin::Full, level(0, 2), level(1, 1)];
    let whole = Explanation::new(header, &image, &[]).unwrap();
    assert_eq!(counted(&whole.counts), [(2, 8, 0), (1, 4, 0), (0, 2, 0)]);
    assert_eq!(whole.origins, Ok(origins.clone()));
    let half = Explanation::new(header, &image, &lost(header, &positions)).unwrap();
    assert_eq!(counted(&half.counts), [(2, 4, 0), (1, 2, 0), (0, 1, 0)]);
    assert_eq!(half.origins, Ok(origins));
    // Before the last write, level 0 was empty, and record 2 had its first one.
    let before = Header { c: 2, ..header };
    let before = Explanation::new(before, &image, &[]).unwrap();
    assert_eq!(counted(&before.counts), [(2, 8, 0), (1, 4, 0)]);
    let origins = vec![Origin::Full, Origin::Full, level(1, 0), level(1, 1)];
    assert_eq!(before.origins, Ok(origins));
}

#[test]
fn every_needed_stripe_is_counted_after_a_fault() {
    let (header, image) = example();
    let fault = |refusal, stripe| {
        Err(Fault {
            refusal,
            stripe: Some(stripe),
        })
    };
    let positions = [(1, 0), (1, 1), (1, 2), (0, 0), (0, 1)];
    let list = lost(header, &positions);
    let short = Explanation::new(header, &image, &list).unwrap();
    assert_eq!(counted(&short.counts), [(2, 8, 0), (1, 1, 1), (0, 0, 1)]);
    assert_eq!(short.origins, fault(Refusal::TooFew, 1));
    // A position with a word out of field is left.
    let mut stray = image.clone();
    stray[3] = 1;
    let stray = Explanation::new(header, &stray, &list).unwrap();
    assert_eq!(stray.counts, short.counts);
    assert_eq!(stray.origins, fault(Refusal::OutOfField, 2));
    // The decoding of a level comes after that of the full stripe, but its counts are there.
    let mut changed = image.clone();
    changed[0] += 1;
    let changed = Explanation::new(header, &changed, &list).unwrap();
    assert_eq!(changed.counts, short.counts);
    assert_eq!(changed.origins, fault(Refusal::Inconsistent, 2));
}

#[test]
fn what_recovery_refuses_without_a_stripe_is_not_explained() {
    let (header, image) = example();
    let explained = |header, image, list| Explanation::new(header, image, list).err();
    let far = Header { c: 4, ..header };
    assert_eq!(explained(far, &image, &[]), Some(Refusal::Header));
    assert_eq!(explained(header, &image[1..], &[]), Some(Refusal::Length));
    assert_eq!(explained(header, &image, &[1]), Some(Refusal::Erasures));
}

/// Counts, origins and scratch of nines, at their lengths.
fn nines(header: Header) -> [Vec<u32>; 3] {
    let Header { k, s, .. } = header;
    [sizes::counts, sizes::origins, sizes::scratch].map(|size| vec![9; size(k, s)])
}

/// Explains in these buffers.
fn explain_in(
    buffers: &mut [Vec<u32>; 3],
    header: Header,
    image: &[u8],
    list: &[u8],
) -> Result<(), Fault> {
    let [counts, origins, scratch] = buffers;
    calls::explain(header, image, list, counts, origins, scratch)
}

#[test]
fn what_the_buffers_hold_afterwards() {
    let (header, image) = example();
    let zeros = nines(header).map(|buffer| vec![0; buffer.len()]);
    let [_, no_origins, scratch] = zeros;
    let before = Header { c: 2, ..header };
    let mut taken = nines(header);
    assert_eq!(explain_in(&mut taken, before, &image, &[]), Ok(()));
    let counts = vec![0, 0, 4, 0, 8, 0];
    let origins = vec![2, 0, 2, 0, 1, 0, 1, 1];
    assert_eq!(taken, [counts, origins, scratch.clone()]);
    let list = lost(header, &[(0, 0), (0, 1), (1, 3)]);
    let mut short = nines(header);
    let answer = explain_in(&mut short, header, &image, &list);
    let fault = |refusal, stripe| Err(Fault { refusal, stripe });
    assert_eq!(answer, fault(Refusal::TooFew, Some(0)));
    assert_eq!(short, [vec![0, 1, 3, 0, 8, 0], no_origins, scratch]);
}

#[test]
fn refusals_1_to_3_change_no_buffer() {
    let (header, image) = example();
    let refused = |mut buffers: [Vec<u32>; 3], header, image: &[u8], list: &[u8], refusal| {
        let answer = explain_in(&mut buffers, header, image, list);
        let stripe = None;
        assert_eq!(answer, Err(Fault { refusal, stripe }));
        assert!(buffers.iter().flatten().all(|&word| word == 9));
    };
    let far = Header { c: 4, ..header };
    refused(nines(header), far, &image, &[], Refusal::Header);
    refused(nines(header), header, &image[1..], &[], Refusal::Length);
    refused(nines(header), header, &image, &[0; 8], Refusal::Erasures);
    for index in 0..3 {
        let mut buffers = nines(header);
        buffers[index].push(9);
        refused(buffers, header, &image, &[], Refusal::Length);
        let mut buffers = nines(header);
        buffers[index].pop();
        refused(buffers, header, &image, &[], Refusal::Length);
    }
}

/// Every choice of lost positions of a small image: the answer is recovery's, and as many positions as are said to be missing are.
#[test]
fn every_loss_of_a_small_image() {
    let mut vault = Vault::open(1, 1, vec![7, 8]).unwrap();
    vault.write(1, &[9]).unwrap();
    let (header, image) = (vault.header(), vault.image().unwrap());
    let all = [(1, 0), (1, 1), (1, 2), (1, 3), (0, 0), (0, 1)];
    for choice in 0..1 << all.len() {
        let chosen = |i: &usize| choice >> i & 1 == 1;
        let positions: Vec<_> = (0..all.len()).filter(chosen).map(|i| all[i]).collect();
        let list = lost(header, &positions);
        let explanation = Explanation::new(header, &image, &list).unwrap();
        for (stripe, of) in [(1, 4), (0, 2)] {
            let gone = positions.iter().filter(|lost| lost.0 == stripe).count() as u32;
            let count = explanation
                .counts
                .iter()
                .find(|count| count.stripe == stripe);
            let (left, half) = (of - gone, of / 2);
            let shortfall = half.saturating_sub(left);
            assert_eq!(
                count.map(|count| (count.left, count.needed, count.shortfall)),
                Some((left, half, shortfall))
            );
        }
        let mut records = vec![0; sizes::raw(1, 1)];
        let mut scratch = vec![0; sizes::scratch(1, 1)];
        let recovered = calls::recover(header, &image, &list, &mut records, &mut scratch);
        assert_eq!(explanation.origins.map(|_| ()), recovered);
    }
}
