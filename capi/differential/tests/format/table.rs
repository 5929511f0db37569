//! Section 9: the table of calls, which is the one that reference/ has.
use crate::document::{section, table};
use crate::forms::{fit, ranges};
use reference::calls::{Call, Use};
use reference::lent::{Buffer, LIST, LIST2};

/// A text without what stands in its brackets.
fn outside(text: &str) -> String {
    let parts = text.split(['(', ')']);
    parts.step_by(2).map(str::trim_end).collect()
}

/// The numbers that a call tests, of which some are told as 7 to 10.
fn tested(text: &str) -> Vec<u32> {
    let text = outside(text).replace("then ", "");
    ranges(text.trim_end_matches(" on each stripe in turn"))
}

/// A buffer by its name in the document.
fn name(call: Call, (used, buffer): (Use, Buffer)) -> String {
    match used {
        Use::StoresPairs(name) => name.to_string(),
        _ if call == Call::Powers => call.name().to_string(),
        _ => buffer.name(),
    }
}

/// The buffers that a call may change, without the header's c.
fn changed(text: &str) -> Vec<&str> {
    let names = text.split(", ");
    names
        .filter(|name| !["none", "the header's c"].contains(name))
        .collect()
}

/// The buffers whose lengths a call tests, sorted.
fn measured(text: &str) -> Vec<String> {
    let [_, names, _] = fit(text, "{}2 ({}){}");
    let names = names.replace("both images", "image, image2");
    let mut names: Vec<String> = names.split(", ").map(String::from).collect();
    names.sort();
    names
}

#[test]
fn section_9_calls() {
    let lines = section("## 9 ");
    let head = "| call | takes | buffers it may change | tests, in order |";
    let rows = table(&lines, head, Call::COUNT);
    assert_eq!(rows.len(), Call::COUNT);
    for (row, call) in rows.iter().zip(Call::all(0, 0)) {
        assert_eq!(row[0], call.name());
        let numbers = [vec![0], tested(row[3])].concat();
        assert_eq!(numbers, call.row().numbers, "{row:?}");
        let names = |which: fn((Use, Buffer)) -> bool| {
            let lent = call.buffers().filter(move |&lent| which(lent));
            lent.map(|lent| name(call, lent)).collect::<Vec<String>>()
        };
        assert_eq!(changed(row[2]), names(|lent| lent.0 != Use::Reads));
        let mut lengths = names(|lent| ![LIST, LIST2].contains(&lent.1));
        lengths.sort();
        assert_eq!(measured(row[3]), lengths);
    }
}
