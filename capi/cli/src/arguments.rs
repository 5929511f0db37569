//! The words of a command line, as options and the arguments between them.
use crate::failure::Failure;
use std::collections::VecDeque;
use std::ffi::{OsStr, OsString};

/// The options that a command takes: those that stand alone, those that a value follows, and one that arguments of its own follow.
pub struct Options {
    pub flags: &'static [&'static str],
    pub values: &'static [&'static str],
    pub part: Option<&'static str>,
}

impl Options {
    pub const NONE: Options = Options {
        flags: &[],
        values: &[],
        part: None,
    };
}

pub struct Arguments {
    words: VecDeque<OsString>,
    flags: Vec<OsString>,
    values: Vec<(OsString, OsString)>,
    /// The arguments that follow the option that has its own, if it is there.
    part: Option<VecDeque<OsString>>,
}

impl Arguments {
    /// Splits words into options and arguments. What follows `--` is no option.
    pub fn new(words: Vec<OsString>, options: &Options) -> Result<Arguments, Failure> {
        let mut arguments = Arguments {
            words: VecDeque::new(),
            flags: Vec::new(),
            values: Vec::new(),
            part: None,
        };
        let mut words = words.into_iter();
        while let Some(word) = words.next() {
            let is = |option: &&str| word == **option;
            if word == "--" {
                arguments.last().extend(words.by_ref());
            } else if options.flags.iter().any(is) {
                arguments.flags.push(word);
            } else if options.values.iter().any(is) {
                let Some(value) = words.next() else {
                    return usage(format!("{} needs a value", word.display()));
                };
                arguments.values.push((word, value));
            } else if options.part.iter().any(is) {
                if arguments.part.replace(VecDeque::new()).is_some() {
                    return usage(format!("{} is given twice", word.display()));
                }
            } else if word.as_encoded_bytes().starts_with(b"--") {
                return usage(format!("there is no option {}", word.display()));
            } else {
                arguments.last().push_back(word);
            }
        }
        Ok(arguments)
    }

    /// The arguments that the next one belongs to.
    fn last(&mut self) -> &mut VecDeque<OsString> {
        self.part.as_mut().unwrap_or(&mut self.words)
    }

    /// The arguments that follow the option that has its own, if it is there.
    pub fn part(&mut self) -> Option<Arguments> {
        self.part.take().map(|words| Arguments {
            words,
            flags: Vec::new(),
            values: Vec::new(),
            part: None,
        })
    }

    pub fn flag(&self, option: &str) -> bool {
        self.flags.iter().any(|flag| flag == option)
    }

    /// The value of an option; the last one, if it is given more than once.
    pub fn value(&self, option: &str) -> Option<&OsStr> {
        let given = self.values.iter().rev().find(|given| given.0 == option)?;
        Some(&given.1)
    }

    /// The next argument, if there is one.
    pub fn next(&mut self) -> Option<OsString> {
        self.words.pop_front()
    }

    /// The next argument, which is known as `name`.
    pub fn needed(&mut self, name: &str) -> Result<OsString, Failure> {
        match self.next() {
            Some(word) if word.is_empty() => usage(format!("{name} is empty")),
            Some(word) => Ok(word),
            None => usage(format!("{name} is missing")),
        }
    }

    /// The next argument, a number.
    pub fn number(&mut self, name: &str) -> Result<u32, Failure> {
        let word = self.needed(name)?;
        number(name, &word)
    }

    /// No argument is left.
    pub fn end(mut self) -> Result<(), Failure> {
        match self.next() {
            Some(word) => usage(format!("{word:?} is one argument too many")),
            None => Ok(()),
        }
    }
}

/// A number of 32 bits, in decimal.
pub fn number(name: &str, word: &OsStr) -> Result<u32, Failure> {
    let digits = word.to_str().filter(|text| {
        let mut bytes = text.bytes();
        bytes.all(|byte| byte.is_ascii_digit())
    });
    match digits.and_then(|text| text.parse().ok()) {
        Some(number) => Ok(number),
        None => usage(format!(
            "{name} is {word:?}, but must be a whole number from 0 to {}",
            u32::MAX
        )),
    }
}

pub fn usage<T>(text: String) -> Result<T, Failure> {
    Err(Failure::Usage(text))
}
