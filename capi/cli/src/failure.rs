//! Why a command ends with a status other than 0.
use crate::files;
use std::fmt;
use std::process::ExitCode;
use vault_library::Refusal;

#[derive(Debug)]
pub enum Failure {
    /// Words that cannot be used: what is wrong with them.
    Usage(String),
    /// A file or stream that cannot be read or written, and why.
    File(String),
    /// The vault refused, and where: text that stands between the refusal's name and its meaning.
    Refused(Refusal, String),
    /// The vault refused, and the command's own output says so.
    Told,
}

impl From<Refusal> for Failure {
    fn from(refusal: Refusal) -> Failure {
        Failure::Refused(refusal, String::new())
    }
}

impl fmt::Display for Failure {
    fn fmt(&self, f: &mut fmt::Formatter) -> fmt::Result {
        match self {
            Failure::Usage(text) | Failure::File(text) => f.write_str(text),
            Failure::Refused(refusal, place) => {
                let (number, name) = (refusal.number(), refusal.name());
                write!(f, "refused {number} ({name}){place}: {}", refusal.meaning())
            }
            Failure::Told => Ok(()),
        }
    }
}

impl Failure {
    /// Says what is wrong, and gives the exit status.
    pub fn report(&self) -> ExitCode {
        if !matches!(self, Failure::Told) {
            files::say(&format!("vault: {self}"));
        }
        ExitCode::from(match self {
            Failure::Refused(..) | Failure::Told => 1,
            Failure::Usage(_) | Failure::File(_) => 2,
        })
    }
}
