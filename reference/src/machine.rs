//! Runs commands over the calls of the vault, and keeps what the program `test_cases` has to print.
//!
//! Output: for each call a line with its name, its number and what else it answers, then a line for each buffer that was lent to it to be changed: its
//! name and its words; of more than 16 words, and of bytes, `#`, their count and a checksum. Counts and origins are printed in full, and so is a listing's text
//! of at most 256 bytes.
use crate::by_reference;
use crate::calls::{Answer, Call, Use};
use crate::header::Header;
use crate::lent::{Buffer, Bytes, Lender, Lent, Words, IMAGE, IMAGE2};
use crate::listing::list;
use crate::script::{Command, Number, BYTES, UNSET, WORDS};
use std::fmt::Write;

pub struct Machine {
    lender: Lender,
    pub printed: String,
    /// The last call's number; a listing's is not kept.
    pub answered: u32,
    /// Writes are those of a vault of before number 11, which took blank blocks.
    pub earlier: bool,
}

/// A random number made from the one before: 48271 generates the residues modulo the prime 2^31 - 1.
fn drawn(state: u64) -> u64 {
    state * 48271 % 2_147_483_647
}

/// The first of the numbers that are drawn from a seed.
fn seeded(seed: u32) -> u64 {
    drawn(u64::from(seed) % 2_147_483_646 + 1)
}

/// Spreads a number that is drawn over 32 bits.
fn spread(state: u64) -> u64 {
    state * 65539 % (1 << 32)
}

fn checksum(numbers: &[u32]) -> u64 {
    numbers
        .iter()
        .fold(0, |sum, &x| (sum * 69069 + u64::from(x) + 1) % (1 << 32))
}

impl Default for Machine {
    fn default() -> Machine {
        let words = |buffer| Lent::new(vec![0; WORDS[buffer as usize]], 0);
        let bytes = |buffer| Lent::new(vec![0; BYTES[buffer as usize]], 0);
        Machine {
            lender: Lender::new(Header::default(), words, bytes),
            printed: String::new(),
            answered: 0,
            earlier: false,
        }
    }
}

impl Machine {
    /// A machine that makes earlier writes.
    pub fn earlier() -> Machine {
        Machine {
            earlier: true,
            ..Machine::default()
        }
    }

    pub fn number(&self, number: Number) -> u32 {
        let Header { k, s, c } = self.header();
        match number {
            Number::K => k,
            Number::S => s,
            Number::C => c,
            Number::WordsLent(buffer) => self.lender.words(buffer).part().len() as u32,
            Number::BytesLent(buffer) => self.lender.bytes(buffer).part().len() as u32,
        }
    }

    pub fn header(&self) -> Header {
        self.lender.header
    }

    /// The lent part of a buffer of words.
    pub fn words(&self, buffer: Words) -> Vec<u32> {
        self.lender.words(buffer).part().to_vec()
    }

    /// The lent part of a buffer of bytes.
    pub fn bytes(&self, buffer: Bytes) -> Vec<u8> {
        self.lender.bytes(buffer).part().to_vec()
    }

    pub fn step(&mut self, command: &Command) {
        match *command {
            Command::Set(number, value) => self.set(number, value),
            Command::Fill {
                buffer,
                bound,
                seed,
            } => self.fill(buffer, bound, seed),
            Command::Put(buffer, at, word) => {
                self.lender.words_mut(buffer).all[at as usize] = word;
            }
            Command::Load(buffer, at, ref bytes) => {
                let all = &mut self.lender.bytes_mut(buffer).all;
                all[at as usize..][..bytes.len()].copy_from_slice(bytes);
            }
            Command::Garble { from, count, seed } => self.garble(from, count, seed),
            Command::Exchange => self.lender.exchange(),
            Command::Call(call) => self.call(call, 0),
            Command::Explain(counts) => self.call(Call::Explain, counts),
            Command::TakeBack(scratch) => self.call(Call::TakeBack, scratch),
            Command::List => self.list(),
        }
    }

    fn set(&mut self, number: Number, value: u32) {
        let header = &mut self.lender.header;
        match number {
            Number::K => header.k = value,
            Number::S => header.s = value,
            Number::C => header.c = value,
            Number::WordsLent(buffer) => self.lender.words_mut(buffer).lend(value as usize),
            Number::BytesLent(buffer) => self.lender.bytes_mut(buffer).lend(value as usize),
        }
    }

    fn fill(&mut self, buffer: Words, bound: u32, seed: u32) {
        let mut state = seeded(seed);
        for word in self.lender.words_mut(buffer).part_mut() {
            let number = spread(state) as u32;
            *word = if bound == 0 { number } else { number % bound };
            state = drawn(state);
        }
    }

    fn garble(&mut self, from: u32, count: u32, seed: u32) {
        let mut state = seeded(seed);
        for byte in &mut self.lender.image.all[from as usize..][..count as usize] {
            *byte = (spread(state) % 256) as u8;
            state = drawn(state);
        }
    }

    /// Makes a call, with so many words lent for the counts or for the double scratch, and prints what it answers and leaves.
    fn call(&mut self, call: Call, words: u32) {
        let buffer = match call {
            Call::TakeBack => Words::DoubleScratch,
            _ => Words::Counts,
        };
        let lent = self.lender.words_mut(buffer);
        lent.lend(words as usize);
        lent.part_mut().fill(UNSET);
        let answer = match call {
            Call::Write { record } if self.earlier => {
                by_reference::earlier_write(&mut self.lender, record)
            }
            _ => by_reference::call(&mut self.lender, call),
        };
        self.answered = answer.number;
        self.show_answer(call, answer);
        for (used, buffer) in call.buffers() {
            self.show_left(used, buffer);
        }
    }

    fn show_answer(&mut self, call: Call, answer: Answer) {
        let mut numbers = vec![answer.number];
        numbers.extend(answer.header.iter().flat_map(|h| [h.k, h.s, h.c]));
        numbers.extend(answer.stripe);
        let place = answer.place.iter();
        numbers.extend(place.flat_map(|p| [p.reading, p.start as u32, p.count as u32]));
        self.show_all(call.name(), &numbers);
        if let Some((start, count)) = answer.part {
            let part = self.lender.raw.part()[start..start + count].to_vec();
            self.show(" part", &part);
        }
        if let Some(place) = answer.place {
            let image = [IMAGE, IMAGE2][place.reading as usize];
            let bytes = self.lender.numbers(image);
            let part = &bytes.part()[place.start..place.start + place.count];
            self.show_sum(" part", part);
        }
    }

    /// A line for a buffer, unless the call that was made only reads it.
    fn show_left(&mut self, used: Use, buffer: Buffer) {
        let left = self.lender.numbers(buffer);
        let name = format!(" {}", buffer.name());
        match (used, buffer) {
            (Use::Reads, _) => {}
            (Use::StoresPairs(name), _) => self.show_all(&format!(" {name}"), left.part()),
            (_, Buffer::Bytes(_)) => self.show_sum(&name, left.part()),
            (_, Buffer::Words(_)) => self.show(&name, left.part()),
        }
    }

    fn show(&mut self, name: &str, words: &[u32]) {
        if words.len() > 16 {
            self.show_sum(name, words);
        } else {
            self.show_all(name, words);
        }
    }

    fn show_all(&mut self, name: &str, numbers: &[u32]) {
        self.printed.push_str(name);
        for x in numbers {
            write!(self.printed, " {x}").unwrap();
        }
        self.printed.push('\n');
    }

    fn show_sum(&mut self, name: &str, numbers: &[u32]) {
        let (count, sum) = (numbers.len(), checksum(numbers));
        writeln!(self.printed, "{name} #{count} {sum}").unwrap();
    }

    fn list(&mut self) {
        let text = list(self.lender.list.part());
        writeln!(self.printed, "list {}", text.len()).unwrap();
        if text.len() <= 256 {
            self.printed.push_str(&text);
        } else {
            let bytes: Vec<u32> = text.bytes().map(u32::from).collect();
            self.show_sum(" text", &bytes);
        }
        self.lender.image.all[..text.len()].copy_from_slice(text.as_bytes());
    }
}
