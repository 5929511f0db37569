//! The whole image of section 12: what the document tells of it, and the vault that is made by it.
use crate::calls::Vault;
use crate::document::{said, section};
use crate::forms::{bytes, fit, header, holes, low_byte_first, number, numbers, pairs};
use crate::places::{positions, Position};
use vault_library::Header;

/// What the example reads where a byte is lost.
pub const LOST: u8 = 0xff;

/// What the first paragraph tells.
pub struct Story {
    pub k: u32,
    pub s: u32,
    /// The bytes of a position and of an image.
    pub lengths: [u32; 2],
    /// The records at the opening.
    pub opened: Vec<u32>,
    pub writes: Vec<(u32, Vec<u32>)>,
    /// What is said of the header and the levels after the writes.
    pub then: String,
}

impl Story {
    fn read(lines: &[String]) -> Story {
        let pattern = "{}, s = {}, so a position has {} bytes, an image {}. \
                       The vault is opened with the records {}. Then {}. The header is now {}.";
        let [k, s, position, image, records, writes, then] = said(lines, "k = ", pattern);
        let records = records.split(", ").flat_map(|x| numbers(x, " "));
        let write = |text: &str| {
            let text = text.strip_prefix("and ").unwrap_or(text);
            let [record, block] = fit(text, "record {} is written {}");
            (number(record), numbers(block, " "))
        };
        Story {
            k: number(k),
            s: number(s),
            lengths: [position, image].map(number),
            opened: records.collect(),
            writes: writes.split(", ").map(write).collect(),
            then,
        }
    }

    /// The vault that the calls make.
    pub fn vault(&self) -> Vault {
        let mut vault = Vault::open(self.k, self.s, self.opened.clone());
        for (record, block) in &self.writes {
            vault.write(*record, block);
        }
        vault
    }
}

/// Puts a block in the place of a record.
pub fn put(records: &mut [u32], record: u32, block: &[u32]) {
    let start = record as usize * block.len();
    records[start..start + block.len()].copy_from_slice(block);
}

/// The whole image: made by the calls that the document tells, so that its bytes there are only compared.
pub struct Example {
    pub lines: Vec<String>,
    pub story: Story,
    pub header: Header,
    pub whole: Vec<u8>,
    pub damaged: Vec<u8>,
    /// L, as pairs and as bytes, and the count of its bytes that the document gives.
    pub pairs: Vec<[u32; 2]>,
    pub list: Vec<u8>,
    pub list_length: u32,
}

impl Example {
    /// Makes the calls of the first paragraph, and loses the bytes of L.
    pub fn read() -> Example {
        let lines = section("### A whole image");
        let story = Story::read(&lines);
        let (header, whole) = story.vault().image();
        let [list, length] = said(&lines, "The erasure list ", "{} is these {} bytes:");
        let pairs = pairs(&list);
        let mut damaged = whole.clone();
        for [offset, length] in &pairs {
            damaged[*offset as usize..][..*length as usize].fill(LOST);
        }
        Example {
            list: low_byte_first(pairs.concat()),
            list_length: number(length),
            lines,
            story,
            header,
            whole,
            damaged,
            pairs,
        }
    }

    /// The records after so many writes.
    pub fn records(&self, writes: usize) -> Vec<u32> {
        let mut records = self.story.opened.clone();
        for (record, block) in &self.story.writes[..writes] {
            put(&mut records, *record, block);
        }
        records
    }

    /// The header, the image and the erasure list that the first cells of a row tell.
    pub fn given(&self, row: &[&str]) -> (Header, Vec<u8>, Vec<u8>) {
        let [name, altered] = holes(row[1], "{}, {}").unwrap_or([row[1], ""]);
        let mut image = match name {
            "whole" => self.whole.clone(),
            "damaged" => self.damaged.clone(),
            _ => panic!("not understood: {row:?}"),
        };
        if !altered.is_empty() {
            let [at, byte] = fit(altered, "byte {} is {}");
            image[number(at) as usize] = bytes(byte)[0];
        }
        let list = match row[2] {
            "empty" => Vec::new(),
            "L" => self.list.clone(),
            other => low_byte_first(pairs(other).concat()),
        };
        (header(row[0]), image, list)
    }

    /// All positions of the image.
    pub fn positions(&self) -> Vec<Position> {
        positions(self.header)
    }
}
