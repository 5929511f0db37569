//! Reading the tables of two readings in section 12, and making the calls of their rows.
use crate::calls::{recover_two, shelf_of_two, Left, Reading};
use crate::document::{said, section, table};
use crate::example::Example;
use crate::forms::number;
use crate::places::erased;
use reference::two_readings::Place;
use std::ops::Range;
use vault_library::{stripes, Header};

/// A row of the table of readings.
pub struct Row<'a> {
    pub cells: Vec<&'a str>,
    pub header: Header,
    images: [Vec<u8>; 2],
    lists: [Vec<u8>; 2],
}

impl<'a> Row<'a> {
    fn new(example: &Example, cells: Vec<&'a str>) -> Row<'a> {
        let (header, image, list) = example.given(&cells[..3]);
        let (_, other, also) = example.given(&[cells[0], cells[3], cells[4]]);
        Row {
            cells,
            header,
            images: [image, other],
            lists: [list, also],
        }
    }

    pub fn readings(&self) -> [Reading<'_>; 2] {
        [0, 1].map(|i| (&self.images[i][..], &self.lists[i][..]))
    }

    pub fn recovered(&self) -> Left {
        recover_two(self.header, self.readings())
    }

    pub fn stripe(&self, stripe: u32) -> (u32, Place) {
        shelf_of_two(self.header, self.readings(), stripe)
    }

    /// The reading that a stripe is decoded in, from 1.
    pub fn chosen(&self, stripe: u32) -> usize {
        let (given, place) = self.stripe(stripe);
        assert_eq!(given, 0);
        place.reading as usize + 1
    }

    /// How many positions of a level survive in each list.
    pub fn left(&self, level: u32) -> [usize; 2] {
        let own = format!("{level} ");
        [0, 1].map(|i| {
            let names = erased(self.header, &self.lists[i]);
            let lost = names.iter().filter(|name| name.starts_with(&own));
            stripes::positions(level) - lost.count()
        })
    }

    /// Whether a part of the two images is the same.
    pub fn same(&self, bytes: Range<usize>) -> bool {
        self.images[0][bytes.clone()] == self.images[1][bytes]
    }

    /// The number that would be given to its lists with the first image in the place of both, so that nothing differs.
    pub fn given_to_one_image(&self) -> u32 {
        let [first, (_, list)] = self.readings();
        recover_two(self.header, [first, (first.0, list)]).number
    }

    /// The number that would be given to its images with nothing lost.
    pub fn given_without_lists(&self) -> u32 {
        let whole = self.readings().map(|(image, _)| (image, &[][..]));
        recover_two(self.header, whole).number
    }
}

/// The bytes of a stripe in an image.
pub fn stripe_bytes(header: Header, stripe: u32) -> Range<usize> {
    let position = |i| stripes::position(header.k, header.s, stripe, i);
    position(0).start..position(stripes::positions(stripe) - 1).end
}

/// A row of the table of stripes: the number of its row of readings, the stripe, and what the document says of it.
pub struct Shelf<'a> {
    pub row: usize,
    pub stripe: u32,
    pub gives: &'a str,
}

/// The document's section, and the vault that its examples are of.
pub struct Tables {
    pub example: Example,
    pub lines: Vec<String>,
}

impl Tables {
    pub fn read() -> Tables {
        Tables {
            example: Example::read(),
            lines: section("## 12 "),
        }
    }

    pub fn rows(&self) -> Vec<Row<'_>> {
        let head = "| header | first image | first list | second image | second list | recover_two gives |";
        let rows = table(&self.lines, head, 17).into_iter();
        rows.map(|cells| Row::new(&self.example, cells)).collect()
    }

    pub fn shelves(&self) -> Vec<Shelf<'_>> {
        let rows = table(&self.lines, "| row | stripe | shelf_of_two gives |", 14);
        let shelf = |cells: Vec<_>| Shelf {
            row: number(cells[0]) as usize,
            stripe: number(cells[1]),
            gives: cells[2],
        };
        rows.into_iter().map(shelf).collect()
    }

    /// Whether the table of stripes has this one of that row.
    pub fn shows(&self, row: usize, stripe: u32) -> bool {
        let shelves = self.shelves();
        shelves.iter().any(|x| (x.row, x.stripe) == (row, stripe))
    }

    /// What the paragraph before the table of readings says: the records, and which positions stand in which bytes.
    pub fn introduced(&self) -> [String; 2] {
        let pattern = "each an image and an erasure list; `records` are {}. {}:";
        let start = "Readings of the whole image above, ";
        said(&self.lines, start, pattern)
    }
}
