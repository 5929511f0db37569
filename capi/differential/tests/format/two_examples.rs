//! Section 12: what the tables of two readings give, and the sentences around them.
use crate::calls::{recover_two, Left};
use crate::document::{cells, said, section, table};
use crate::forms::{answer, counted, fit, holes, joined, number, numbers, ordinal, ranges};
use crate::places::stripes_in_order;
use crate::two_tables::{stripe_bytes, Row, Shelf, Tables};
use reference::two_readings::Place;
use std::collections::BTreeMap;

/// What a recovery gave, as the document writes it.
fn answered(left: &Left, records: &[u32]) -> String {
    match answer(left.number, left.stripe) {
        refused if left.number != 0 => refused,
        taken if left.out == records => format!("{taken}: records"),
        taken => format!("{taken}: {}", joined(&left.out, " ")),
    }
}

/// What the output and the scratch hold afterwards, as section 10 writes it.
fn held(left: &Left) -> [&'static str; 2] {
    [&left.out, &left.scratch].map(|words| match left.stored() {
        None => "unchanged",
        Some(_) if words.iter().all(|&x| x == 0) => "zeros",
        Some(_) => "as section 9 says",
    })
}

/// What the table of section 10 says of the output and the scratch after each number.
fn afterwards(lines: &[String]) -> BTreeMap<u32, [&str; 2]> {
    let head = "| number | buffers and header | out of decode, recover and recover_two, origins | counts | scratch |";
    let mut all = BTreeMap::new();
    for row in table(lines, head, 3) {
        let out = row[2].trim_end_matches(", all of it");
        for number in ranges(row[0]) {
            assert_eq!(all.insert(number, [out, row[4]]), None);
        }
    }
    assert!(all.keys().copied().eq(0..=14));
    all
}

/// The table of readings: the number, the stripe and the records of each row, and what the buffers hold afterwards by the table of section 10.
#[test]
fn section_12_two_readings() {
    let tables = Tables::read();
    let example = &tables.example;
    let records = numbers(&tables.introduced()[0], " ");
    assert_eq!(records, example.records(example.story.writes.len()));
    let lines = section("## 10 ");
    let afterwards = afterwards(&lines);
    for row in tables.rows() {
        let left = row.recovered();
        assert_eq!(row.cells[5], answered(&left, &records), "{:?}", row.cells);
        assert_eq!(held(&left), afterwards[&left.number], "{:?}", row.cells);
    }
}

/// The names of the first and the last of some positions, as the paragraph before the table tells them.
fn ends(text: &str) -> [String; 2] {
    let pattern = "level {} and the first {} positions of level {}";
    if let Some([low, count, high]) = holes(text, pattern) {
        return [format!("{low} 0"), format!("{high} {}", counted(count) - 1)];
    }
    let names = match holes(text, "position {}") {
        Some([name]) => [name; 2],
        None => fit(text, "{} to {}"),
    };
    names.map(String::from)
}

/// The lists of the positions that the paragraph before the table tells: they stand in these bytes.
fn told_lists(tables: &Tables) -> Vec<String> {
    let [_, told] = tables.introduced();
    let told = told.replacen(" are the bytes ", " the bytes ", 1);
    let told = told.replacen(", and ", ", ", 1);
    let positions = tables.example.positions();
    let list = |part: &str| {
        let [names, from, to] = fit(part, "{} the bytes {} to {}");
        let [first, last] = ends(names).map(|name| {
            let named = positions.iter().find(|position| position.name == name);
            &named.expect("a position").bytes
        });
        let bytes = [from, to].map(|at| number(at) as usize);
        assert_eq!(bytes, [first.start, last.end - 1], "{part}");
        format!("({}, {})", first.start, last.end - first.start)
    };
    told.split(", ").map(list).collect()
}

/// The bytes before the table are those of the positions named, and the table has their lists. Each other cell of what is given stands in the section's tables
/// more than once, and another header is there for what it changes: a slip that leaves a row true shows by this.
#[test]
fn section_12_readings_given() {
    let tables = Tables::read();
    let lists = told_lists(&tables);
    let lines = tables.lines.iter().filter(|line| line.starts_with("| "));
    let all: Vec<&str> = lines.flat_map(|line| cells(line)).collect();
    let times = |text: &str| all.iter().filter(|&&x| x == text).count();
    assert!(lists.iter().all(|list| times(list) > 0));
    for row in tables.rows() {
        for cell in &row.cells[..5] {
            let told = lists.iter().any(|list| list == cell);
            assert!(told || times(cell) > 1, "{cell}");
        }
        let (own, plain) = (row.recovered(), tables.example.header);
        let changed = recover_two(plain, row.readings()) != own;
        assert!(row.header == plain || changed, "{:?}", row.cells);
    }
}

/// What shelf_of_two gave, as the document writes it.
fn part((given, place): (u32, Place)) -> String {
    let Place {
        reading,
        start,
        count,
    } = place;
    match given {
        0 => {
            let reading = ["first", "second"][reading as usize];
            format!("0: {reading}, bytes {start} to {}", start + count - 1)
        }
        refusal => refusal.to_string(),
    }
}

/// The table of stripes: the number, the reading and the bytes of each row.
#[test]
fn section_12_stripes_of_two_readings() {
    let tables = Tables::read();
    let rows = tables.rows();
    let pattern =
        "counted from {}. The part is given by its bytes in the image, the first and the last:";
    let start = "One stripe of the readings of some of these rows, ";
    let [from] = said(&tables.lines, start, pattern).map(number);
    for shelf in tables.shelves() {
        let given = rows[shelf.row - from as usize].stripe(shelf.stripe);
        assert_eq!(shelf.gives, part(given), "row {}", shelf.row);
    }
}

/// The rows of the table of stripes show what section 9 says: 1, 3 and 13 come before 6, which is of the first number that no stripe has; and 13 is of all
/// needed stripes, where a level differs and the full stripe, which is asked for, does not. They are in order, and none is there twice.
#[test]
fn section_12_stripes_shown() {
    let tables = Tables::read();
    let (rows, shelves, k) = (tables.rows(), tables.shelves(), tables.example.header.k);
    let mut early = Vec::new();
    for (i, shelf) in shelves.iter().enumerate() {
        let before = &shelves[..i];
        let same = |other: &Shelf| (other.row, other.stripe) == (shelf.row, shelf.stripe);
        assert!(before.iter().all(|x| x.row <= shelf.row && !same(x)));
        if shelf.stripe > k {
            early.push((shelf.stripe - k, shelf.gives));
        } else if shelf.gives == "13" {
            let row = &rows[shelf.row - 1];
            assert!(shelf.stripe == k && row.same(stripe_bytes(row.header, k)));
        }
    }
    early.sort();
    assert_eq!(early, ["1", "13", "3", "6"].map(|given| (1, given)));
}

/// The sentence on the third row: the full stripe and the levels are decoded in these readings. The table of stripes has them all, and one that is none.
fn third_row_holds(tables: &Tables, [full, levels]: [&str; 2]) {
    let place = ordinal("third");
    let row = &tables.rows()[place - 1];
    let k = row.header.k;
    for stripe in stripes_in_order(k) {
        let reading = if stripe == k { full } else { levels };
        assert_eq!(row.chosen(stripe), ordinal(reading));
    }
    assert!((0..=k + 1).all(|stripe| tables.shows(place, stripe)));
}

/// The sentence on two rows with the same readings, exchanged: of a level as many positions survive in both.
fn tie_holds(tables: &Tables, [first, second, count, level, reading]: [&str; 5]) {
    let (rows, level) = (tables.rows(), number(level));
    let places = [first, second].map(ordinal);
    let [row, exchanged] = places.map(|place| &rows[place - 1]);
    let [one, other] = row.readings();
    assert_eq!(exchanged.readings(), [other, one]);
    for row in [row, exchanged] {
        assert_eq!(row.left(level), [counted(count); 2]);
        assert_eq!(row.chosen(level), ordinal(reading));
    }
    assert_ne!(row.recovered().number, exchanged.recovered().number);
    assert!(places.iter().any(|&place| tables.shows(place, level)));
}

/// The sentence on the order of the tests: some row shows each, by what it would give without its fault.
fn order_holds(rows: &[Row], [differ, few, list]: [u32; 3]) {
    assert_eq!([differ, few, list], [13, 7, 3]);
    let gives = |row: &Row, number| row.recovered().number == number;
    let before = |row: &Row| gives(row, differ) && row.given_to_one_image() == few;
    let after = |row: &Row| gives(row, list) && row.given_without_lists() == differ;
    assert!(rows.iter().any(before) && rows.iter().any(after));
}

/// The sentence on a level that is empty with that count: the same readings differ there with the example's header. The table of stripes has the level.
fn empty_level_holds(tables: &Tables, [c, level]: [u32; 2]) {
    let rows = tables.rows();
    let place = rows.iter().position(|row| row.header.c == c);
    let place = place.expect("a row with that count");
    let row = &rows[place];
    assert!(!row.header.filled(level) && !row.same(stripe_bytes(row.header, level)));
    let with_it = recover_two(tables.example.header, row.readings());
    assert_eq!((row.recovered().number, with_it.number), (0, 13));
    assert!(tables.shows(place + 1, level));
}

/// The sentences after the table of readings.
#[test]
fn section_12_choices_and_order() {
    let tables = Tables::read();
    let pattern = "is decoded in the {} reading, and the levels in the {}. In the {} and {} rows {} positions of level {} survive \
                   in either reading, so that the {} is decoded: exchanging the readings shows. {} comes before {}, \
                   and after {}; with c = {} level {} is empty, and is not compared.";
    let said = said(&tables.lines, "In the third row the full stripe ", pattern);
    let [full, levels, first, second, count, level, reading, differ, few, list, c, empty] =
        said.each_ref().map(|x| &x[..]);
    third_row_holds(&tables, [full, levels]);
    tie_holds(&tables, [first, second, count, level, reading]);
    order_holds(&tables.rows(), [differ, few, list].map(number));
    empty_level_holds(&tables, [c, empty].map(number));
}
