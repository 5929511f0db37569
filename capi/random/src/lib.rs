//! Numbers that look random and are the same for the same seed. The stored test cases are made from them, so the numbers of a seed never change.

pub struct Random {
    state: u64,
}

impl Random {
    pub fn new(seed: u64) -> Random {
        Random { state: seed }
    }

    /// splitmix64.
    fn number(&mut self) -> u64 {
        self.state = self.state.wrapping_add(0x9e37_79b9_7f4a_7c15);
        let mut z = self.state;
        z = (z ^ z >> 30).wrapping_mul(0xbf58_476d_1ce4_e5b9);
        z = (z ^ z >> 27).wrapping_mul(0x94d0_49bb_1331_11eb);
        z ^ z >> 31
    }

    /// A number below n.
    pub fn below(&mut self, n: u64) -> u64 {
        self.number() % n
    }

    /// The same for a length or a place.
    pub fn index(&mut self, n: usize) -> usize {
        self.below(n as u64) as usize
    }

    /// One of some items, of which there is at least one.
    pub fn one<'a, T>(&mut self, items: &'a [T]) -> &'a T {
        &items[self.index(items.len())]
    }

    /// `count` different numbers below n.
    pub fn some(&mut self, n: usize, count: usize) -> Vec<usize> {
        let mut all: Vec<usize> = (0..n).collect();
        for i in 0..count {
            let j = i + self.index(n - i);
            all.swap(i, j);
        }
        all.truncate(count);
        all
    }

    pub fn bytes(&mut self, count: usize) -> Vec<u8> {
        (0..count).map(|_| self.below(256) as u8).collect()
    }
}

#[cfg(test)]
mod tests {
    use super::Random;

    /// The first numbers of splitmix64 from the seed 1234567, as its author's program prints them.
    #[test]
    fn numbers_of_a_seed() {
        let mut random = Random::new(1_234_567);
        let expected = [
            6_457_827_717_110_365_317,
            3_203_168_211_198_807_973,
            9_817_491_932_198_370_423,
        ];
        assert_eq!(expected.map(|_| random.number()), expected);
    }

    #[test]
    fn some_are_different() {
        let mut some = Random::new(1).some(9, 9);
        some.sort();
        assert!(some.into_iter().eq(0..9));
        assert_eq!(Random::new(1).some(9, 4), Random::new(1).some(9, 9)[..4]);
    }
}
