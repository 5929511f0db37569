//! The calls of the record vault across its C boundary, as include/vault.h has them, and the constants beside them. The package `vault-library` has the
//! same calls over slices, which nobody can call wrongly.
//!
//! A vault keeps n = 2^k records of s words each in buffers of the caller's: the raw records, n * s words, the full shelf, 2n(s + 1) words, and the log of
//! k levels, (2n - 2)(s + 1) words. Its plate is k (1 to 10), s (1 to 128) and c (0 to n - 1), the writes since the full shelf was last built. Its image is
//! 4(s + 1)(4n - 2) bytes, and a scratch buffer n(s + 1) + 4n words, twice as many for taking back.
//!
//! Each call gives a number of the table of refusals in docs/FORMAT.md. It makes its tests in the order in which they are named at the call, and gives the
//! first that applies, for any numbers, any counts and any contents of the buffers: a length that is not the one named here is refused, and is no fault of the
//! caller's.
//!
//! # Safety
//!
//! What no call can test, and the caller owes:
//! - each pointer is aligned for its type, and valid for as many elements as the count after it says (words of 32 bits, or bytes); a pointer that no count
//!   follows (`c`, `start`, `count`, `reading`, a `*mut` `shelf`) is valid for one. A pointer whose count is 0 is not followed, and may be null;
//! - what a `*mut` pointer leads to overlaps nothing else that the call is lent;
//! - nobody else reads or changes any of it during the call.

/// No test applies: the call is taken.
pub const VAULT_TAKEN: u32 = 0;
/// Plate: k, s or c out of its range.
pub const VAULT_HEADER: u32 = 1;
/// Length: a buffer, a block or the image is not exactly its length.
pub const VAULT_LENGTH: u32 = 2;
/// Gap list: not whole pairs, or a rule of gap lists broken.
pub const VAULT_GAP_LIST: u32 = 3;
/// Record: the record number is n or more.
pub const VAULT_RECORD: u32 = 4;
/// Data word: a word of the block, or of an opened record that is not struck, is above 65535.
pub const VAULT_DATA_WORD: u32 = 5;
/// Shelf: the shelf number is above k, or that level is not filled.
pub const VAULT_SHELF: u32 = 6;
/// Too few: fewer than half of the shelf's positions survive.
pub const VAULT_TOO_FEW: u32 = 7;
/// Stray: a surviving word is above 65536.
pub const VAULT_STRAY: u32 = 8;
/// Discord: no list of blocks codes to all surviving words.
pub const VAULT_DISCORD: u32 = 9;
/// No sheet: the one list that does holds no records.
pub const VAULT_NO_SHEET: u32 = 10;
/// Blank: each data word of the block of a write is 0.
pub const VAULT_BLANK: u32 = 11;
/// Round start: a write is to be taken back, and `*c` is 0.
pub const VAULT_ROUND_START: u32 = 12;
/// Readings differ: a position of a needed shelf is whole in both of two readings, with another word in each.
pub const VAULT_READINGS_DIFFER: u32 = 13;
/// Struck: each word of the record that is read is exactly 65536.
pub const VAULT_STRUCK: u32 = 14;

/// What stands in the place of each data word of a struck record, in `raw`, in blocks and in what recovery gives.
pub const VAULT_STRUCK_WORD: u32 = 65536;

/// What [`vault_recover`], [`vault_recover_two`] and [`vault_explain`] leave in `*shelf` where they name none.
pub const VAULT_NO_SHELF: u32 = 0xffff_ffff;

// Pointer and count stand on one line, as in include/vault.h.
#[rustfmt::skip]
extern "C" {
    /// Opening: builds the full shelf of the raw records and zeroes the log. The plate is then k, s, 0.
    ///
    /// Tests 1 (k and s), 2 (`raw`, `full`, `log`) and 5 (a record of `raw`: its words are neither all at most 65535 nor all exactly 65536). After 0, `full`
    /// holds the coded records and `log` zeros; after any other number both are as they were. Records of zeros are taken like any others ([`VAULT_BLANK`] is in
    /// writing alone), and so are struck ones, each word of which is [`VAULT_STRUCK_WORD`].
    ///
    /// # Safety
    ///
    /// `raw` is valid for reads of `raw_len` words; `full` and `log` are valid for reads and writes of `full_len` and `log_len` words, and overlap nothing
    /// that the call is lent.
    pub fn vault_open(
        k: u32, s: u32,
        raw: *const u32, raw_len: usize,
        full: *mut u32, full_len: usize,
        log: *mut u32, log_len: usize,
    ) -> u32;

    /// Writing: replaces a record by a block of s data words. A blank block, one whose words are all 0, is turned away: a press writes such blocks while its
    /// probe is unplugged. One word that is not 0, at any place, is enough for a block not to be blank.
    ///
    /// Tests 1 (k, s and `*c`), 2 (`raw`, `full`, `log`, `block`), 4, 5 (a word of the block) and 11 (the block). After 0, the record in `raw` is the block,
    /// and either the first empty level of `log` is rebuilt from those below it and `*c` is one more, or, where `*c` was n - 1, `full` is built anew from
    /// `raw`, `log` is zeros and `*c` is 0. After any other number, 11 too, all of these are as they were. Words of buffers that no opening made count
    /// modulo 65537. Earlier versions of the library did not have 11, and took blank blocks: records of zeros in their buffers and images are read, decoded,
    /// recovered and explained as any others.
    ///
    /// # Safety
    ///
    /// `c` is valid for reads and writes of one number; `raw`, `full` and `log` are valid for reads and writes of as many words as their counts say; none of
    /// the four overlaps anything that the call is lent. `block` is valid for reads of `block_len` words.
    pub fn vault_write(
        k: u32, s: u32, c: *mut u32,
        raw: *mut u32, raw_len: usize,
        full: *mut u32, full_len: usize,
        log: *mut u32, log_len: usize,
        record: u32,
        block: *const u32, block_len: usize,
    ) -> u32;

    /// Striking: a record has no data from then on, and reads as struck, until it is written again. It is a write of [`VAULT_STRUCK_WORD`] in the place of each
    /// data word, and counts as one; [`vault_write`] turns such a block away (5). A record that is struck already is taken like any other. The words of before
    /// stay where they are coded, on the full shelf or in the log, until the round ends.
    ///
    /// Tests 1 (k, s and `*c`), 2 (`raw`, `full`, `log`) and 4. After 0, the record in `raw` is struck, and `full`, `log` and `*c` are as [`vault_write`]
    /// leaves them after a write of that block; after any other number all of these are as they were.
    ///
    /// # Safety
    ///
    /// `c` is valid for reads and writes of one number; `raw`, `full` and `log` are valid for reads and writes of as many words as their counts say; none of
    /// the four overlaps anything that the call is lent.
    pub fn vault_strike(
        k: u32, s: u32, c: *mut u32,
        raw: *mut u32, raw_len: usize,
        full: *mut u32, full_len: usize,
        log: *mut u32, log_len: usize,
        record: u32,
    ) -> u32;

    /// Taking back: undoes the last write of the round, or the last strike, again and again back to its start.
    ///
    /// Tests 1 (k, s and `*c`), 2 (`raw`, `full`, `log`, `scratch` of 2n(s + 1) + 8n words) and 12 (`*c`), then 8 to 10 on each shelf in the order in which
    /// they are decoded: the lowest filled level, and others until the record's write before is found. After 0, the record in `raw` is as before the write,
    /// the lowest filled level of `log` is zeros, the levels below hold its other writes, `*c` is one less, and `scratch` zeros. After 1, 2 and 12 all of
    /// these are as they were; after 8 to 10 `scratch` is zeros and the others are as they were.
    ///
    /// # Safety
    ///
    /// `c` is valid for reads and writes of one number; `raw`, `log` and `scratch` are valid for reads and writes of as many words as their counts say; none of
    /// the four overlaps anything that the call is lent. `full` is valid for reads of `full_len` words.
    pub fn vault_take_back(
        k: u32, s: u32, c: *mut u32,
        raw: *mut u32, raw_len: usize,
        full: *const u32, full_len: usize,
        log: *mut u32, log_len: usize,
        scratch: *mut u32, scratch_len: usize,
    ) -> u32;

    /// Reading: where a record stands in the raw records.
    ///
    /// Tests 1 (k, s and c), 2 (`raw`), 4 and 14 (each word of the record is [`VAULT_STRUCK_WORD`]). After 0, `*start` is record * s and `*count` is s; after
    /// any other number both are 0.
    ///
    /// # Safety
    ///
    /// `raw` is valid for reads of `raw_len` words; `start` and `count` are valid for writes of one number each, and overlap nothing that the call is lent.
    pub fn vault_read(
        k: u32, s: u32, c: u32,
        raw: *const u32, raw_len: usize,
        record: u32,
        start: *mut usize, count: *mut usize,
    ) -> u32;

    /// Shelf decoding: the blocks of one shelf of an image, of which the bytes that the gap list covers are lost. `shelf` is a level, or k for the full
    /// shelf; `gaps` is pairs of offset and length in bytes of the image, each number 4 bytes, low byte first.
    ///
    /// Tests 1 (k, s and c), 2 (`image`, `out` of n(s + 1) words, `scratch`), 3, 6, 7, 8, 9 and 10. After 0, `out` holds the blocks in order of time and
    /// zeros after them, and `scratch` zeros; after 1 to 6 both are as they were, after 7 to 10 zeros.
    ///
    /// # Safety
    ///
    /// `image` and `gaps` are valid for reads of `image_len` and `gaps_len` bytes; `out` and `scratch` are valid for reads and writes of `out_len` and
    /// `scratch_len` words, and overlap nothing that the call is lent.
    pub fn vault_decode(
        k: u32, s: u32, c: u32,
        image: *const u8, image_len: usize,
        gaps: *const u8, gaps_len: usize,
        shelf: u32,
        out: *mut u32, out_len: usize,
        scratch: *mut u32, scratch_len: usize,
    ) -> u32;

    /// Recovery: all records from an image, of which the bytes that the gap list covers are lost.
    ///
    /// Tests 1 (k, s and c), 2 (`image`, `out` of n * s words, `scratch`) and 3, then 7 to 10 on each shelf in the order in which they are decoded: the full
    /// shelf, and the filled levels from k - 1 down. After 0, `out` holds the records and `scratch` zeros; after 1 to 3 both are as they were; then `*shelf`
    /// is [`VAULT_NO_SHELF`]. After 7 to 10 both are zeros, and `*shelf` is the first shelf at fault.
    ///
    /// # Safety
    ///
    /// As for [`vault_decode`]; besides, `shelf` is valid for writes of one number, and overlaps nothing that the call is lent.
    pub fn vault_recover(
        k: u32, s: u32, c: u32,
        image: *const u8, image_len: usize,
        gaps: *const u8, gaps_len: usize,
        out: *mut u32, out_len: usize,
        scratch: *mut u32, scratch_len: usize,
        shelf: *mut u32,
    ) -> u32;

    /// Recovery from two readings of one rack: an image and a gap list each, under one plate. A position of the full shelf or of a filled level that is whole
    /// in both, but with other words, is 13. Each shelf is decoded in the reading that has more of its positions whole, the first on a tie.
    ///
    /// Tests 1 (k, s and c), 2 (`image1`, `image2`, `out` of n * s words, `scratch`), 3 (either list) and 13, then 7 to 10 on each shelf in recovery's order.
    /// After 0, `out` holds the records and `scratch` zeros; after 1 to 3 and 13 both are as they were; then `*shelf` is [`VAULT_NO_SHELF`]. After 7 to 10 both
    /// are zeros, and `*shelf` is the first shelf at fault.
    ///
    /// # Safety
    ///
    /// `image1`, `gaps1`, `image2` and `gaps2` are valid for reads of as many bytes as their counts say, and may overlap; `out` and `scratch` are valid for
    /// reads and writes of `out_len` and `scratch_len` words, `shelf` for writes of one number; none of the three overlaps anything that the call is lent.
    pub fn vault_recover_two(
        k: u32, s: u32, c: u32,
        image1: *const u8, image1_len: usize,
        gaps1: *const u8, gaps1_len: usize,
        image2: *const u8, image2_len: usize,
        gaps2: *const u8, gaps2_len: usize,
        out: *mut u32, out_len: usize,
        scratch: *mut u32, scratch_len: usize,
        shelf: *mut u32,
    ) -> u32;

    /// One shelf of two readings: where its bytes stand, in the image of the reading that [`vault_recover_two`] decodes it in.
    ///
    /// Tests 1 (k, s and c), 2 (`image1`, `image2`), 3 (either list), 13 over the whole rack, and then 6. After 0, the shelf is the bytes from `*start` on,
    /// `*count` of them, of `image1` if `*reading` is 0, and of `image2` if it is 1; after any other number all three are 0.
    ///
    /// # Safety
    ///
    /// `image1`, `gaps1`, `image2` and `gaps2` are valid for reads of as many bytes as their counts say, and may overlap; `reading`, `start` and `count` are
    /// valid for writes of one number each, and overlap nothing that the call is lent.
    pub fn vault_shelf_of_two(
        k: u32, s: u32, c: u32,
        image1: *const u8, image1_len: usize,
        gaps1: *const u8, gaps1_len: usize,
        image2: *const u8, image2_len: usize,
        gaps2: *const u8, gaps2_len: usize,
        shelf: u32,
        reading: *mut u32, start: *mut usize, count: *mut usize,
    ) -> u32;

    /// Explaining a recovery: `counts` has two words for each shelf from 0 to k, the positions left and how many more would do, zeros if recovery does not need
    /// the shelf; `origins` has two for each record, the level that holds the last write to it in the round and that write's number in the round, k and 0 if
    /// the record comes from the full shelf.
    ///
    /// Tests 1 (k, s and c), 2 (`image`, `counts` of 2(k + 1) words, `origins` of 2n words, `scratch`) and 3, then 7 to 10 on each shelf in recovery's order.
    /// The number and `*shelf` are those of [`vault_recover`]. After 0, `counts` and `origins` hold the answer and `scratch` zeros; after 1 to 3 all three are
    /// as they were. After 7 to 10, `counts` holds the counts of all needed shelves, and `origins` and `scratch` are zeros.
    ///
    /// # Safety
    ///
    /// `image` and `gaps` are valid for reads of `image_len` and `gaps_len` bytes; `counts`, `origins` and `scratch` are valid for reads and writes of as many
    /// words as their counts say, `shelf` for writes of one number; none of the four overlaps anything that the call is lent.
    pub fn vault_explain(
        k: u32, s: u32, c: u32,
        image: *const u8, image_len: usize,
        gaps: *const u8, gaps_len: usize,
        counts: *mut u32, counts_len: usize,
        origins: *mut u32, origins_len: usize,
        scratch: *mut u32, scratch_len: usize,
        shelf: *mut u32,
    ) -> u32;

    /// The image of a vault: the full shelf and then the log, each word 4 bytes, low byte first.
    ///
    /// Tests 1 (k, s and c) and 2 (`full`, `log`, `image`). After 0, `image` holds the image; after any other number it is as it was.
    ///
    /// # Safety
    ///
    /// `full` and `log` are valid for reads of `full_len` and `log_len` words; `image` is valid for reads and writes of `image_len` bytes, and overlaps
    /// nothing that the call is lent.
    pub fn vault_image(
        k: u32, s: u32, c: u32,
        full: *const u32, full_len: usize,
        log: *const u32, log_len: usize,
        image: *mut u8, image_len: usize,
    ) -> u32;

    /// The table of powers: `powers[i]` is (3^32)^i modulo 65537. The root of a vault is entry 1024 / n; its power j, for j from 0 to 2n - 1, is entry
    /// j * 1024 / n, and the inverse of that, for j from 1, entry 2048 - j * 1024 / n.
    ///
    /// Tests 2 (`powers` of 2,048 words). After 0, `powers` holds the table; after 2 it is as it was.
    ///
    /// # Safety
    ///
    /// `powers` is valid for reads and writes of `powers_len` words.
    pub fn vault_powers(
        powers: *mut u32, powers_len: usize,
    ) -> u32;
}
