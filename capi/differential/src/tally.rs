//! Counts of the calls made, and what a run has to have met.
use reference::calls::{Answer, Call};
use std::fmt::{self, Display, Formatter};

const CALLS: usize = Call::COUNT;

/// The numbers of the table of refusals, from 0.
const NUMBERS: usize = 15;

/// The calls, each with any numbers, in the order of the counts.
fn calls() -> [Call; CALLS] {
    Call::all(0, 0)
}

#[derive(Clone, Default)]
pub struct Tally {
    /// How often each call gave each number.
    numbers: [[u64; NUMBERS]; CALLS],
    /// For each k, how often each call was taken.
    taken: [[u64; CALLS]; 11],
    /// For each number, how often each call named a level.
    levels: [[u64; CALLS]; 11],
    /// The same of the full stripe.
    full: [[u64; CALLS]; 11],
    /// For each k, what was met of blank blocks, in the order of `BLANK`.
    blank: [[u64; BLANK.len()]; 11],
    /// For each k, what was met of struck records, in the order of `STRUCK`.
    struck: [[u64; STRUCK.len()]; 11],
}

/// What is met of blank blocks: writes that were refused 11, earlier writes that were taken, and recoveries of which a record is zeros that a write of the
/// round left, as only an earlier one can.
const BLANK: [&str; 3] = ["refused", "earlier", "recover"];

/// What is met of struck records: readings that were refused 14, and recoveries of which a record is struck by a strike of the round, or comes so from the full
/// stripe.
const STRUCK: [&str; 3] = ["read", "strike", "full"];

impl Tally {
    pub fn calls(&self) -> u64 {
        self.numbers.iter().flatten().sum()
    }

    /// Counts a call whose answers were equal.
    pub fn count(&mut self, k: u32, call: Call, answer: Answer) {
        let (number, call) = (answer.number as usize, call.index());
        self.numbers[call][number] += 1;
        if number == 0 {
            self.taken[k as usize][call] += 1;
        }
        if number == 11 {
            self.blank[k as usize][0] += 1;
        }
        if number == 14 {
            self.struck[k as usize][0] += 1;
        }
        match answer.stripe {
            Some(stripe) if stripe == k => self.full[number][call] += 1,
            Some(_) => self.levels[number][call] += 1,
            None => {}
        }
    }

    /// Counts an earlier write of a blank block.
    pub fn count_earlier(&mut self, k: u32) {
        self.blank[k as usize][1] += 1;
    }

    /// Counts a recovery that gave a record back as an earlier write of a blank block left it.
    pub fn count_recovered(&mut self, k: u32) {
        self.blank[k as usize][2] += 1;
    }

    /// Counts a recovery that gave a struck record, from a level or from the full stripe.
    pub fn count_struck(&mut self, k: u32, full: bool) {
        self.struck[k as usize][if full { 2 } else { 1 }] += 1;
    }

    pub fn add(&mut self, other: &Tally) {
        fn add<const N: usize, const M: usize>(to: &mut [[u64; N]; M], from: &[[u64; N]; M]) {
            for (x, y) in to.iter_mut().flatten().zip(from.iter().flatten()) {
                *x += y;
            }
        }
        add(&mut self.numbers, &other.numbers);
        add(&mut self.taken, &other.taken);
        add(&mut self.levels, &other.levels);
        add(&mut self.full, &other.full);
        add(&mut self.blank, &other.blank);
        add(&mut self.struck, &other.struck);
    }

    /// What did not occur: each number of each call, each call taken and each of `BLANK` and of `STRUCK` at each k up to `most`, and each fault of recovery and
    /// of its explanation on a level and on the full stripe.
    pub fn missing(&self, most: usize) -> Vec<String> {
        let mut missing = Vec::new();
        for call in calls() {
            missing.extend(self.numbers_missing(call));
            missing.extend(self.sizes_missing(call, most));
            missing.extend(self.places_missing(call));
        }
        for k in 1..=most {
            missing.extend(never_met("blank blocks", k, &BLANK, &self.blank[k]));
            missing.extend(never_met("struck records", k, &STRUCK, &self.struck[k]));
        }
        missing
    }

    fn numbers_missing(&self, call: Call) -> impl Iterator<Item = String> + '_ {
        let never = move |&number: &u32| self.numbers[call.index()][number as usize] == 0;
        let numbers = call.row().numbers.iter().copied().filter(never);
        numbers.map(move |number| format!("{} never gave {number}", call.name()))
    }

    fn sizes_missing(&self, call: Call, most: usize) -> impl Iterator<Item = String> + '_ {
        let sizes = (1..=most).filter(move |&k| self.taken[k][call.index()] == 0);
        sizes.map(move |k| format!("{} was never taken at k = {k}", call.name()))
    }

    /// Of calls that decode (7) and are given no stripe (6): they name the stripe at fault.
    fn places_missing(&self, call: Call) -> impl Iterator<Item = String> + '_ {
        let numbers = (7..=10).filter(move |_| call.gives(7) && !call.gives(6));
        let places = [(&self.levels, "a level"), (&self.full, "the full stripe")];
        let all = numbers.flat_map(move |number| places.map(|place| (number, place)));
        let missing = all.filter(move |(number, place)| place.0[*number][call.index()] == 0);
        let name = call.name();
        missing.map(move |(number, place)| format!("{name} never gave {number} on {}", place.1))
    }
}

/// Which of these were never counted at this k.
fn never_met<'a>(
    of: &'a str,
    k: usize,
    names: &'a [&str],
    counts: &'a [u64],
) -> impl Iterator<Item = String> + 'a {
    let never = names.iter().zip(counts).filter(|x| *x.1 == 0);
    never.map(move |x| format!("of {of} none was met at k = {k}: {}", x.0))
}

impl Display for Tally {
    fn fmt(&self, f: &mut Formatter) -> fmt::Result {
        write!(f, "{:10}", "number")?;
        for number in 0..NUMBERS {
            write!(f, "{number:>8}")?;
        }
        writeln!(f)?;
        let names = calls().map(Call::name);
        for (name, row) in names.iter().zip(&self.numbers) {
            write!(f, "{name:10}")?;
            for count in row {
                write!(f, "{count:>8}")?;
            }
            writeln!(f)?;
        }
        by_k(f, "taken, k", &names, &self.taken)?;
        by_k(f, "blank, k", &BLANK, &self.blank)?;
        by_k(f, "struck, k", &STRUCK, &self.struck)
    }
}

/// A line for each name, with its count at each k.
fn by_k<const N: usize>(
    f: &mut Formatter,
    title: &str,
    names: &[&str; N],
    counts: &[[u64; N]; 11],
) -> fmt::Result {
    write!(f, "{title:10}{:>8}", "")?;
    for k in 1..=10 {
        write!(f, "{k:>8}")?;
    }
    writeln!(f)?;
    for (i, name) in names.iter().enumerate() {
        write!(f, "{name:10}{:>8}", "")?;
        for row in &counts[1..] {
            write!(f, "{:>8}", row[i])?;
        }
        writeln!(f)?;
    }
    Ok(())
}
