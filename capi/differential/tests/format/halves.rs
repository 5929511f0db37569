//! Recovery of what a vault holds, with each half of each needed stripe lost.
use crate::calls::{explain, recover, Vault};
use vault_library::{erasures, stripes, Header};

/// Each choice of half of the positions of a stripe of 2^l blocks.
fn halves(stripe: u32) -> Vec<Vec<usize>> {
    let (half, all) = (1 << stripe, 2 << stripe);
    let chosen = |mask: u32| (0..all).filter(|&i| mask >> i & 1 == 1).collect();
    let masks = (0..1u32 << all).filter(|mask| mask.count_ones() == half);
    masks.map(chosen).collect()
}

/// Each loss of half of every needed stripe, and of all empty levels: the positions of stripe l at place l.
fn losses(header: Header) -> Vec<Vec<Vec<usize>>> {
    let mut losses = vec![Vec::new()];
    for stripe in 0..=header.k {
        let choices = if header.filled(stripe) {
            halves(stripe)
        } else {
            vec![(0..2 << stripe).collect()]
        };
        let with = |loss: &Vec<Vec<usize>>, more: &Vec<usize>| {
            let mut loss = loss.clone();
            loss.push(more.clone());
            loss
        };
        let longer = |loss| choices.iter().map(move |more| with(loss, more));
        losses = losses.iter().flat_map(longer).collect();
    }
    losses
}

/// Recovery of what the vault holds gives these records, from its whole image and with each half of each needed stripe lost. The explanation is taken too.
pub fn recovers(vault: &Vault, records: &[u32]) {
    assert_eq!(vault.records(), records);
    let (header, whole) = vault.image();
    let left = recover(header, &whole, &[]);
    assert_eq!((left.number, &left.out[..]), (0, records));
    for loss in losses(header) {
        let mut image = whole.clone();
        let mut lost = Vec::new();
        for (stripe, positions) in (0..).zip(&loss) {
            for &i in positions {
                let bytes = stripes::position(header.k, header.s, stripe, i);
                image[bytes.clone()].fill(0xff);
                lost.push(bytes);
            }
        }
        let list = erasures::list(lost);
        let left = recover(header, &image, &list);
        assert_eq!((left.number, &left.out[..]), (0, records), "{loss:?}");
        assert_eq!(explain(header, &image, &list).number, 0);
    }
}
