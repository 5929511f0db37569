//! Where records come from, told by the writes of a round: what an explanation has to give.
use reference::header::Header;

/// The origins of all records, where these records were written in the round, in order of time: for each the level and the number of the last write to it.
pub fn origins(header: Header, written: &[u32]) -> Vec<u32> {
    let mut origins = [header.k, 0].repeat(header.records());
    for (number, &record) in (0..header.c).zip(written) {
        // The level that holds write t is the highest bit in which t and c differ: c has a 1 there and t a 0, and the bits above are those of the level's t0.
        let level = (number ^ header.c).ilog2();
        let at = 2 * record as usize;
        origins[at..at + 2].copy_from_slice(&[level, number]);
    }
    origins
}
