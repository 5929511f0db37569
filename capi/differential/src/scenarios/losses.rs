//! Losses: each kind of them at the end of a round, with all survivors as they were and with one altered.
use super::damage::{alter_survivor, lose};
use super::steps::{decode_all, open, recover_after, recover_allowed};
use crate::erasures::{Loss, Marks};
use crate::session::{Run, Session};
use crate::writes::{blank_write, earlier_write, next_write};
use reference::calls::Call;

pub fn losses(session: &mut Session) -> Run<()> {
    almost_a_round(session)?;
    each_loss(session)?;
    for loss in [Loss::Half, Loss::Some, Loss::AllY] {
        altered(session, loss)?;
    }
    blank_round(session)
}

/// The next write that is taken ends the round.
fn almost_a_round(session: &mut Session) -> Run<()> {
    open(session)?;
    for _ in 1..session.header().records() {
        next_write(session)?;
    }
    blank_write(session)
}

fn each_loss(session: &mut Session) -> Run<()> {
    session.allow(5000);
    for loss in Loss::ALL {
        if session.is_allowed() {
            recover_after(session, loss)?;
        }
    }
    Ok(())
}

/// Decodes what is left, and asks again with a word altered, on each stripe in turn.
fn altered(session: &mut Session, loss: Loss) -> Run<()> {
    session.allow(500);
    session.call(Call::Image)?;
    let header = session.header();
    let marks = loss.marks(&mut session.random, header);
    lose(session, &marks);
    decode_all(session)?;
    for stripe in 0..=header.k {
        altered_on(session, &marks, stripe)?;
    }
    Ok(())
}

fn altered_on(session: &mut Session, marks: &Marks, stripe: u32) -> Run<()> {
    session.call(Call::Image)?;
    lose(session, marks);
    alter_survivor(session, marks, stripe);
    session.call_allowed(Call::Decode { stripe })?;
    recover_allowed(session)
}

/// Ends a round with an earlier write of a blank block, and begins the next with one: the full stripe and a level hold zero records then. Large rounds have
/// blank writes in any case.
fn blank_round(session: &mut Session) -> Run<()> {
    let header = session.header();
    if header.k > 4 {
        return Ok(());
    }
    for _ in 0..2 {
        earlier_write(session, &vec![0; header.data()])?;
        recover_after(session, Loss::Half)?;
    }
    Ok(())
}
