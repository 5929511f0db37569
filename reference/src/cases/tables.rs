//! The table of powers.
use super::Script;
use crate::calls::Call;
use crate::lent::Words;
use crate::powers::ENTRIES;

/// The table over garbage, in buffers of its length and of others.
pub fn add(script: &mut Script) {
    for length in [
        ENTRIES,
        ENTRIES - 1,
        ENTRIES + 1,
        2 * ENTRIES,
        1024,
        1,
        0,
        ENTRIES,
    ] {
        script.lend(Words::Out, length);
        script.fill(Words::Out, 0);
        script.call(Call::Powers);
    }
}
