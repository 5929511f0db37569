//! A scenario's run: the calls of both implementations that it makes, and what is counted of them.
use crate::both::{describe, Both};
use crate::tally::Tally;
use crate::writes::is_blank;
use random::Random;
use reference::calls::{Answer, Call};
use reference::header::Header;
use reference::lent::Lender;

/// What was not as it should be.
pub struct Difference {
    /// How many calls came before.
    pub calls: u64,
    pub text: String,
}

pub type Run<T> = Result<T, Difference>;

/// How a session is to be run.
#[derive(Clone, Copy)]
pub struct Settings {
    /// The elements of a guard, on either side of a buffer.
    pub guard: usize,
    /// The call whose inputs are to be printed, by the number of calls before it.
    pub shown: Option<u64>,
}

pub struct Session {
    pub random: Random,
    pub tally: Tally,
    both: Both,
    settings: Settings,
    /// How much elimination the reference may still do, in nanoseconds: a stripe of 2^l blocks takes about 2 * 8^l.
    allowed: i64,
}

impl Session {
    pub fn new(header: Header, random: Random, settings: Settings) -> Session {
        Session {
            random,
            tally: Tally::default(),
            both: Both::new(header, settings.guard),
            settings,
            allowed: 0,
        }
    }

    pub fn header(&self) -> Header {
        self.lent().header
    }

    /// What both are lent.
    pub fn lent(&self) -> &Lender {
        self.both.lent()
    }

    /// Changes what both are lent, alike.
    pub fn set(&mut self, change: impl Fn(&mut Lender)) {
        self.both.set(change);
    }

    /// Lets the reference eliminate for about so many milliseconds: a call is made if some of them are left.
    pub fn allow(&mut self, milliseconds: i64) {
        self.allowed = 1_000_000 * milliseconds;
    }

    /// Makes the call if the reference may still eliminate.
    pub fn call_allowed(&mut self, call: Call) -> Run<()> {
        if self.allowed > 0 {
            self.call(call)?;
        }
        Ok(())
    }

    pub fn is_allowed(&self) -> bool {
        self.allowed > 0
    }

    /// Makes the call of both.
    pub fn call(&mut self, call: Call) -> Run<Answer> {
        self.both.lend_output(call);
        self.make(call)
    }

    /// Makes a call on changed buffers, and gives both theirs back afterwards.
    pub fn call_changed(&mut self, call: Call, change: impl Fn(&mut Lender)) -> Run<Answer> {
        let kept = self.both.clone();
        self.both.lend_output(call);
        self.both.set(change);
        let answer = self.make(call)?;
        self.both = kept;
        Ok(answer)
    }

    /// Makes the call over the buffers as they are lent.
    fn make(&mut self, call: Call) -> Run<Answer> {
        self.both.soil(call, self.random.below(1 << 32) as u32);
        let header = self.header();
        if self.settings.shown == Some(self.tally.calls()) {
            let inputs = describe(self.lent());
            println!("the call's inputs:\n  {call:?}\n{inputs}");
        }
        let given = self.both.call(call);
        let answer = given.map_err(|text| self.difference(text))?;
        self.tally.count(header.k, call, answer);
        self.allowed -= cost(header, call, answer);
        Ok(answer)
    }

    /// An earlier write, which both have then. Gives its number.
    pub fn earlier_write(&mut self, record: u32) -> u32 {
        let k = self.header().k;
        let number = self.both.earlier_write(record);
        if number == 0 && is_blank(self.lent().block.part()) {
            self.tally.count_earlier(k);
        }
        number
    }

    pub fn difference(&self, text: String) -> Difference {
        Difference {
            calls: self.tally.calls(),
            text,
        }
    }

    /// The test of something that both must give.
    pub fn expect(&self, holds: bool, what: &str) -> Run<()> {
        if holds {
            Ok(())
        } else {
            Err(self.difference(format!("{what} at {:?}", self.header())))
        }
    }
}

/// What a call that decodes (9) cost the reference by elimination: of its stripe (6), or of all stripes, of which the full one is first. Taking back may have
/// ended at a lower stripe.
fn cost(header: Header, call: Call, answer: Answer) -> i64 {
    let eliminated = match answer.number {
        0 | 9 | 10 => call.gives(9),
        7 | 8 => answer.stripe.is_some_and(|stripe| stripe != header.k),
        _ => false,
    };
    let stripe = if call.gives(6) {
        call.row().given
    } else {
        header.k
    };
    if eliminated {
        2 << (3 * stripe)
    } else {
        0
    }
}
