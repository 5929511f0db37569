//! Test cases for the calls of the vault: what the program `test_cases` reads, and what it has to print.
mod blanks;
mod earlier;
mod explanations;
mod faults;
mod images;
mod listings;
mod losses;
mod openings;
mod recoveries;
mod strikes;
mod struck;
mod tables;
mod taking_back;
mod two_readings;
mod writes;

use crate::calls::Call;
use crate::header::Header;
use crate::lent::{Bytes, Words};
use crate::machine::Machine;
use crate::script::{Command, Number};
use random::Random;

/// Commands, and the machine that has run them.
pub struct Script {
    commands: Vec<Command>,
    machine: Machine,
    random: Random,
}

impl Script {
    fn push(&mut self, command: Command) {
        self.machine.step(&command);
        self.commands.push(command);
    }

    fn call(&mut self, call: Call) {
        self.push(Command::Call(call));
    }

    fn set(&mut self, number: Number, value: u32) {
        if self.machine.number(number) != value {
            self.push(Command::Set(number, value));
        }
    }

    fn seed(&mut self) -> u32 {
        self.random.below(1 << 32) as u32
    }

    /// Fills the lent part of a buffer with numbers below a bound; 0: any numbers.
    fn fill(&mut self, buffer: Words, bound: u32) {
        let seed = self.seed();
        self.push(Command::Fill {
            buffer,
            bound,
            seed,
        });
    }

    fn garble(&mut self, from: usize, count: usize) {
        let seed = self.seed();
        self.push(Command::Garble {
            from: from as u32,
            count: count as u32,
            seed,
        });
    }

    fn lend(&mut self, buffer: Words, count: usize) {
        self.set(Number::WordsLent(buffer), count as u32);
    }

    fn lend_bytes(&mut self, buffer: Bytes, count: usize) {
        self.set(Number::BytesLent(buffer), count as u32);
    }

    /// Sets a header and the lengths of all buffers that it fixes.
    fn begin(&mut self, header: Header) {
        self.set(Number::K, header.k);
        self.set(Number::S, header.s);
        self.set(Number::C, header.c);
        self.lend(Words::Raw, header.raw_len());
        self.lend(Words::Full, header.full_len());
        self.lend(Words::Log, header.log_len());
        self.lend(Words::Block, header.data());
        self.lend(Words::Scratch, header.scratch_len());
        self.lend_bytes(Bytes::Image, header.image_len());
        self.lend_bytes(Bytes::List, 0);
    }

    /// Opens records of which some words stand at the edges, over buffers that hold garbage.
    fn open(&mut self, k: u32, s: u32) {
        let header = Header { k, s, c: 0 };
        self.begin(header);
        self.fill(Words::Raw, 65536);
        self.fill(Words::Full, 0);
        self.fill(Words::Log, 0);
        for _ in 0..header.raw_len().min(16) / 4 {
            let at = self.random.below(header.raw_len() as u64) as u32;
            let word = *self.random.one(&[0, 65535]);
            self.push(Command::Put(Words::Raw, at, word));
        }
        self.call(Call::Open);
    }

    /// A write of any block to any record. A vault of today is given none that is blank.
    fn write(&mut self) {
        let header = self.machine.header();
        self.fill(Words::Block, 65536);
        if self.random.below(4) == 0 {
            let at = self.random.below(header.s.into()) as u32;
            let word = *self.random.one(&[0, 65535]);
            self.push(Command::Put(Words::Block, at, word));
        }
        let blank = self.machine.words(Words::Block).iter().all(|&x| x == 0);
        if blank && !self.machine.earlier {
            self.push(Command::Put(Words::Block, 0, 1));
        }
        let record = self.random.below(header.records() as u64) as u32;
        self.call(Call::Write { record });
    }

    fn load(&mut self, buffer: Bytes, bytes: Vec<u8>) {
        self.lend_bytes(buffer, bytes.len());
        self.push(Command::Load(buffer, 0, bytes));
    }

    /// Loads an erasure list.
    fn erasures(&mut self, gaps: &[(u32, u32)]) {
        let bytes = |&(offset, length): &(u32, u32)| [offset.to_le_bytes(), length.to_le_bytes()];
        self.load(Bytes::List, gaps.iter().flat_map(bytes).flatten().collect());
    }

    /// Puts a word into the image.
    fn alter(&mut self, at: usize, word: u32) {
        let bytes = word.to_le_bytes().to_vec();
        self.push(Command::Load(Bytes::Image, 4 * at as u32, bytes));
    }

    fn decode(&mut self, stripe: u32) {
        self.lend_garbage(Call::Decode { stripe });
        self.call(Call::Decode { stripe });
    }

    fn recover(&mut self) {
        self.lend_garbage(Call::Recover);
        self.call(Call::Recover);
    }

    fn explain(&mut self) {
        self.lend_garbage(Call::Explain);
        let counts = self.machine.header().counts_len();
        self.push(Command::Explain(counts as u32));
    }

    fn take_back(&mut self) {
        let scratch = self.machine.header().double_scratch_len();
        self.push(Command::TakeBack(scratch as u32));
    }

    /// Lends the output of a call on an image: it and the scratch hold garbage before the call.
    fn lend_garbage(&mut self, call: Call) {
        let count = (call.row().out)(self.machine.header());
        self.lend(Words::Out, count);
        self.fill(Words::Out, 0);
        self.fill(Words::Scratch, 0);
    }
}

fn script() -> Script {
    let mut script = Script {
        commands: Vec::new(),
        machine: Machine::earlier(),
        random: Random::new(2014),
    };
    listings::add(&mut script);
    openings::add(&mut script);
    writes::add(&mut script);
    images::add(&mut script);
    losses::add(&mut script);
    recoveries::add(&mut script);
    explanations::add(&mut script);
    tables::add(&mut script);
    // The cases so far are older than number 11. They were drawn by the answers of a vault that took blank blocks, and stay as they were drawn; what has to be
    // printed is what a vault of today answers to them. Those that follow are drawn by its answers.
    script.machine = Machine::default();
    for command in &script.commands {
        script.machine.step(command);
    }
    blanks::add(&mut script);
    earlier::add(&mut script);
    listings::add_blanks(&mut script);
    taking_back::add(&mut script);
    two_readings::add(&mut script);
    strikes::add(&mut script);
    struck::add(&mut script);
    script
}

/// What the program reads, and what it has to print.
pub fn cases() -> (Vec<u8>, String) {
    let script = script();
    let mut input = (script.commands.len() as u32).to_le_bytes().to_vec();
    input.extend(script.commands.iter().flat_map(Command::input));
    (input, script.machine.printed)
}
