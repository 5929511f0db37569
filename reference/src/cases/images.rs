//! Images.
use super::faults::{self, Accepted};
use super::Script;
use crate::calls::Call;
use crate::lent::{Bytes, Words};
use crate::script::{Command, Number};

pub fn add(script: &mut Script) {
    for (k, s) in [(1, 1), (2, 1), (3, 3), (4, 128), (10, 2)] {
        script.open(k, s);
        script.write();
        let header = script.machine.header();
        script.garble(0, header.image_len());
        script.call(Call::Image);
        // Any words, at any c.
        script.fill(Words::Full, 0);
        script.fill(Words::Log, 0);
        script.call(Call::Image);
    }
    script.open(2, 2);
    script.garble(0, 512);
    let header = script.machine.header();
    let mut faults = faults::header(header.k);
    for (number, length) in [
        (Number::WordsLent(Words::Full), header.full_len()),
        (Number::WordsLent(Words::Log), header.log_len()),
        (Number::BytesLent(Bytes::Image), header.image_len()),
    ] {
        faults.extend(faults::lengths(number, length));
    }
    let call = Accepted {
        command: |_| Command::Call(Call::Image),
        given: 0,
        faults,
        garbage: vec![],
    };
    faults::add(script, &call);
}
