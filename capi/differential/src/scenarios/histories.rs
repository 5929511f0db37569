//! Histories: writes and strikes of several rounds, alone or mixed with everything else, takings-back among it.
use super::refusals::any_refusal;
use super::steps::{inspect, open, read, recover_after};
use super::taking_back::take_back;
use crate::erasures::Loss;
use crate::session::{Run, Session};
use crate::writes::next_write;
use reference::calls::Call;
use reference::powers::ENTRIES;

/// Writes of two rounds and some more, with a reading and an image in the middle of each.
pub fn rounds(session: &mut Session) -> Run<()> {
    open(session)?;
    let n = session.header().records();
    for i in 0..2 * n + 3 {
        next_write(session)?;
        if i % n == n / 2 {
            read(session)?;
            session.call(Call::Image)?;
        }
    }
    Ok(())
}

/// Refusals before anything is opened, and then everything mixed.
pub fn history(session: &mut Session) -> Run<()> {
    for _ in 0..session.random.below(3) {
        any_refusal(session)?;
    }
    open(session)?;
    mixed(session, 120 + 3 * session.header().records())?;
    any_powers(session)
}

fn mixed(session: &mut Session, steps: usize) -> Run<()> {
    for _ in 0..steps {
        match session.random.below(100) {
            0..52 => {
                next_write(session)?;
            }
            52..60 if session.is_allowed() => take_back(session)?,
            60..66 => read(session)?,
            66..72 if session.is_allowed() => {
                let loss = *session.random.one(&Loss::ALL);
                recover_after(session, loss)?;
            }
            72..80 => inspect(session)?,
            _ => any_refusal(session)?,
        }
    }
    Ok(())
}

/// The table of powers beside what a history left: a buffer of any length is lent for it, and one of its length.
fn any_powers(session: &mut Session) -> Run<()> {
    let length = session.random.index(2 * ENTRIES);
    session.call_changed(Call::Powers, |lender| lender.out.resize(length, 0))?;
    session.call(Call::Powers)?;
    Ok(())
}
