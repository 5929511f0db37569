//! The commands that the program `test_cases` reads.
//!
//! Input: the count of commands in 4 bytes, then the commands. A command is a byte for its kind and three numbers of 4 bytes, of which those
//! that it does not use are 0; `Load` is followed by bytes. Numbers have the low byte first. The kinds of the calls are in the table of `calls`.
use crate::calls::Call;
use crate::lent::{Bytes, Words};

/// How many words a buffer of words has, and how many bytes a buffer of bytes. The words that a command lends for the counts, or for the double scratch, are
/// `UNSET` each time: what no count is, and no scratch afterwards.
pub const WORDS: [usize; 8] = [4096, 8192, 8192, 256, 4096, 8192, 32, 16384];
pub const BYTES: [usize; 4] = [65536, 16384, 65536, 16384];
pub const UNSET: u32 = 99999;

/// What a `Set` sets.
#[derive(Clone, Copy, PartialEq)]
pub enum Number {
    K,
    S,
    C,
    /// How many words of a buffer are lent.
    WordsLent(Words),
    /// How many bytes of a buffer are lent.
    BytesLent(Bytes),
}

impl Number {
    fn index(self) -> u32 {
        match self {
            Number::K => 0,
            Number::S => 1,
            Number::C => 2,
            Number::WordsLent(buffer) => 3 + buffer as u32,
            Number::BytesLent(buffer) => 9 + buffer as u32,
        }
    }
}

pub enum Command {
    Set(Number, u32),
    /// All lent words of a buffer become numbers below a bound (0: any numbers), drawn from a seed.
    Fill {
        buffer: Words,
        bound: u32,
        seed: u32,
    },
    /// One word of a buffer.
    Put(Words, u32, u32),
    /// These bytes are put into a buffer from an offset on.
    Load(Bytes, u32, Vec<u8>),
    /// Bytes of the image become numbers drawn from a seed.
    Garble {
        from: u32,
        count: u32,
        seed: u32,
    },
    /// The two readings change places.
    Exchange,
    Call(Call),
    /// The call of that name, with so many words lent for its counts; `Call` lends none.
    Explain(u32),
    /// The same with a double scratch.
    TakeBack(u32),
    List,
}

impl Command {
    pub fn input(&self) -> Vec<u8> {
        let (kind, numbers) = match *self {
            Command::Set(number, value) => (0, [number.index(), value, 0]),
            Command::Fill {
                buffer,
                bound,
                seed,
            } => (1, [buffer as u32, bound, seed]),
            Command::Put(buffer, at, word) => (2, [buffer as u32, at, word]),
            Command::Load(buffer, at, ref bytes) => (3, [buffer as u32, at, bytes.len() as u32]),
            Command::Garble { from, count, seed } => (4, [from, count, seed]),
            Command::Call(call) => (call.row().command, [call.row().given, 0, 0]),
            Command::Explain(counts) => (Call::Explain.row().command, [counts, 0, 0]),
            Command::TakeBack(scratch) => (Call::TakeBack.row().command, [scratch, 0, 0]),
            Command::List => (11, [0; 3]),
            Command::Exchange => (17, [0; 3]),
        };
        let mut bytes = vec![kind];
        bytes.extend(numbers.iter().flat_map(|n| n.to_le_bytes()));
        if let Command::Load(_, _, loaded) = self {
            bytes.extend(loaded);
        }
        bytes
    }
}
