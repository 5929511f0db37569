/*
 * The press record vault: the calls of docs/FORMAT.md (section 9) for C and C++. Link with target/staticlib/libvault.a, which `./vault --help` builds (by
 * scripts/build.sh) for x86-64-v2, a processor with SSE4.2; it does not look whether it runs on one. Of the C library it needs `memset`.
 *
 * A vault keeps n = 2^k records, numbered 0 to n - 1, of s data words each, in three buffers of the caller's: the raw records, the full shelf and the log
 * of k levels. Its plate is k (1 to 10), s (1 to 128) and c (0 to n - 1), the writes since the full shelf was last built. The library keeps nothing between
 * two calls, and a call touches only what it is lent.
 *
 * Each call gives a number of the table below, 0 if it is taken. It makes its tests in the order in which they are named at the call, and gives the first that
 * applies, for any numbers, any counts and any contents of the buffers. What is proved of it (crates/c_calls/src/lib.rt) is this number and every word and byte
 * that it leaves.
 *
 * What no call can test, and the caller answers for:
 * - each pointer is valid for the count that follows it, and aligned for its type; c, start, count, shelf and reading are valid for one number each. A pointer
 *   whose count is 0 is not followed;
 * - what a call may change (a pointer without `const`) overlaps nothing else that it is lent;
 * - nobody else reads or changes these during the call.
 *
 * Counts are of elements: words for uint32_t, bytes for uint8_t.
 */
#ifndef VAULT_H
#define VAULT_H

#include <stddef.h>
#include <stdint.h>

#ifdef __cplusplus
extern "C" {
#endif

/* The number of a call: the table of docs/FORMAT.md, section 10. */
enum vault_number {
    VAULT_TAKEN = 0,            /* no test applies */
    VAULT_HEADER = 1,           /* plate: k, s or c out of its range */
    VAULT_LENGTH = 2,           /* length: a buffer, block or image is not exactly its length */
    VAULT_GAP_LIST = 3,         /* gap list: not whole pairs, or a rule of gap lists broken */
    VAULT_RECORD = 4,           /* record: the record number is n or more */
    VAULT_DATA_WORD = 5,        /* data word: a word of the block, or of an opened record that is not struck, is above 65535 */
    VAULT_SHELF = 6,            /* shelf: the shelf number is above k, or that level is not filled */
    VAULT_TOO_FEW = 7,          /* too few: fewer than half of the shelf's positions survive */
    VAULT_STRAY = 8,            /* stray: a surviving word is above 65536 */
    VAULT_DISCORD = 9,          /* discord: no list of blocks codes to all surviving words */
    VAULT_NO_SHEET = 10,        /* no sheet: the one list that does holds no records */
    VAULT_BLANK = 11,           /* blank: each data word of the block of a write is 0 */
    VAULT_ROUND_START = 12,     /* round start: a write is to be taken back, and *c is 0 */
    VAULT_READINGS_DIFFER = 13, /* readings differ: a position of a needed shelf is whole in both of two readings, with another word in each */
    VAULT_STRUCK = 14           /* struck: each word of the record that is read is exactly 65536 */
};

/* What stands in the place of each data word of a struck record, in raw, in blocks and in what recovery gives. */
#define VAULT_STRUCK_WORD UINT32_C(65536)

/* What vault_recover, vault_recover_two and vault_explain leave in *shelf where they name none. */
#define VAULT_NO_SHELF UINT32_C(0xffffffff)

/* The sizes of the buffers, for k from 1 to 10 and s from 1 to 128; constants if k and s are. That of the table of powers depends on neither. */
#define VAULT_RECORDS(k) ((size_t)1 << (k))                                          /* n = 2^k */
#define VAULT_RAW_WORDS(k, s) (VAULT_RECORDS(k) * (size_t)(s))                       /* n * s */
#define VAULT_FULL_WORDS(k, s) (2 * VAULT_RECORDS(k) * ((size_t)(s) + 1))            /* 2n(s + 1) */
#define VAULT_LOG_WORDS(k, s) ((2 * VAULT_RECORDS(k) - 2) * ((size_t)(s) + 1))       /* (2n - 2)(s + 1) */
#define VAULT_OUT_WORDS(k, s) (VAULT_RECORDS(k) * ((size_t)(s) + 1))                 /* n(s + 1) */
#define VAULT_SCRATCH_WORDS(k, s) (VAULT_RECORDS(k) * ((size_t)(s) + 5))             /* n(s + 1) + 4n */
#define VAULT_TAKE_BACK_WORDS(k, s) (2 * VAULT_SCRATCH_WORDS(k, s))                  /* 2n(s + 1) + 8n */
#define VAULT_COUNTS_WORDS(k) (2 * ((size_t)(k) + 1))                                /* 2(k + 1) */
#define VAULT_ORIGINS_WORDS(k) (2 * VAULT_RECORDS(k))                                /* 2n */
#define VAULT_IMAGE_BYTES(k, s) (4 * ((size_t)(s) + 1) * (4 * VAULT_RECORDS(k) - 2)) /* 4(s + 1)(4n - 2) */
#define VAULT_POWERS_WORDS ((size_t)2048)                                            /* 2,048 */

/*
 * Opening: builds the full shelf of the raw records and zeroes the log. The plate is then k, s, 0.
 *
 * Lengths: raw VAULT_RAW_WORDS, full VAULT_FULL_WORDS, log VAULT_LOG_WORDS.
 * Tests: 1 (k and s), 2 (raw, full, log), 5 (a record of raw: its words are neither all at most 65535 nor all exactly 65536).
 * After 0: full holds the coded records, log zeros. After any other number: full and log are as they were.
 * raw never changes: it is the raw copy that later calls take. Records of zeros are taken like any others (VAULT_BLANK is in writing alone), and so are struck
 * ones, each word of which is VAULT_STRUCK_WORD.
 */
uint32_t vault_open(uint32_t k, uint32_t s,
                    const uint32_t *raw, size_t raw_len,
                    uint32_t *full, size_t full_len,
                    uint32_t *log, size_t log_len);

/*
 * Writing: replaces a record by a block of s data words. A blank block, one whose words are all 0, is turned away: a press writes such blocks while its probe
 * is unplugged. One word that is not 0, at any place, is enough for a block not to be blank.
 *
 * Lengths: raw VAULT_RAW_WORDS, full VAULT_FULL_WORDS, log VAULT_LOG_WORDS, block s.
 * Tests: 1 (k, s and *c), 2 (raw, full, log, block), 4, 5 (a word of the block), 11 (the block).
 * After 0: the record in raw is the block, and
 * - if *c was below n - 1: the first empty level of the log is rebuilt from the levels below it and the block, those are zeros, the rest of the log and full
 *   are as they were, and *c is one more;
 * - if *c was n - 1: full is built anew from raw, log is zeros, and *c is 0.
 * After any other number, 11 too: raw, full, log and *c are as they were.
 * Buffers that no opening made are allowed: words read from them count modulo 65537.
 * Earlier versions of this library did not have 11, and took blank blocks. Their buffers and images are as good as today's: records of zeros there are read,
 * decoded, recovered and explained as any others.
 */
uint32_t vault_write(uint32_t k, uint32_t s, uint32_t *c,
                     uint32_t *raw, size_t raw_len,
                     uint32_t *full, size_t full_len,
                     uint32_t *log, size_t log_len,
                     uint32_t record,
                     const uint32_t *block, size_t block_len);

/*
 * Striking: a record has no data from then on, and reads as struck, until it is written again. It is a write of VAULT_STRUCK_WORD in the place of each data
 * word, and counts as one; vault_write turns such a block away (5). A record that is struck already is taken like any other. The words of before stay where
 * they are coded, on the full shelf or in the log, until the round ends.
 *
 * Lengths: raw VAULT_RAW_WORDS, full VAULT_FULL_WORDS, log VAULT_LOG_WORDS.
 * Tests: 1 (k, s and *c), 2 (raw, full, log), 4.
 * After 0: the record in raw is struck, and full, log and *c are as vault_write leaves them after a write of that block.
 * After any other number: raw, full, log and *c are as they were.
 */
uint32_t vault_strike(uint32_t k, uint32_t s, uint32_t *c,
                      uint32_t *raw, size_t raw_len,
                      uint32_t *full, size_t full_len,
                      uint32_t *log, size_t log_len,
                      uint32_t record);

/*
 * Taking back: undoes the last write of the round, which may be a strike, again and again back to its start. The write that ends a round cannot be taken back:
 * *c is 0 after it.
 *
 * The lowest filled level is decoded; its last block is the write, and names the record. The record gets its write before that in the round, the newest that
 * there is, else what the full shelf has of it. It is sought in the lowest filled level, in the filled levels above, and on the full shelf, each decoded when
 * its turn comes, and no further than the one that has it. No position counts as lost, and no word is reduced.
 *
 * Lengths: raw VAULT_RAW_WORDS, full VAULT_FULL_WORDS, log VAULT_LOG_WORDS, scratch VAULT_TAKE_BACK_WORDS.
 * Tests: 1 (k, s and *c), 2 (raw, full, log, scratch), 12 (*c), then 8, 9, 10 on each shelf in the order in which they are decoded.
 * After 0: the record in raw is as before the write, the lowest filled level is zeros, the levels below it hold its other writes, the rest of the log is as it
 * was, *c is one less, and scratch zeros. After an opening, writes and strikes, *c, raw, full and log are what they were before the write.
 * After 1, 2 and 12: raw, log, scratch and *c are as they were. After 8 to 10: raw, log and *c are as they were, and scratch is zeros.
 */
uint32_t vault_take_back(uint32_t k, uint32_t s, uint32_t *c,
                         uint32_t *raw, size_t raw_len,
                         const uint32_t *full, size_t full_len,
                         uint32_t *log, size_t log_len,
                         uint32_t *scratch, size_t scratch_len);

/*
 * Reading: where a record stands in the raw records.
 *
 * Lengths: raw VAULT_RAW_WORDS.
 * Tests: 1 (k, s and c), 2 (raw), 4, 14 (each word of the record is VAULT_STRUCK_WORD).
 * After 0: the record is the words raw[*start] to raw[*start + *count - 1]; *start is record * s, *count is s.
 * After any other number: *start and *count are 0.
 */
uint32_t vault_read(uint32_t k, uint32_t s, uint32_t c,
                    const uint32_t *raw, size_t raw_len,
                    uint32_t record,
                    size_t *start, size_t *count);

/*
 * Shelf decoding: the blocks of one shelf of an image, of which the bytes that the gap list covers are lost.
 *
 * shelf is a level, 0 to k - 1, that is filled (its bit of c is 1), or k for the full shelf. A level l has 2^l blocks, the full shelf n; each block is s + 1
 * words, the record's number and its data, of a struck record VAULT_STRUCK_WORD in the place of each. A position is lost if a gap touches one of its bytes.
 * The gap list is pairs of offset and length in bytes of the image, each number 4 bytes, low byte first. Each length is at least 1, each pair ends inside the
 * image, and each offset is greater than offset + length of the pair before it. A list of 0 bytes is good.
 *
 * Lengths: image VAULT_IMAGE_BYTES, out VAULT_OUT_WORDS, scratch VAULT_SCRATCH_WORDS; gaps of any length (3 if it is not whole pairs).
 * Tests: 1 (k, s and c), 2 (image, out, scratch), 3, 6, 7, 8, 9, 10.
 * After 0: out holds the blocks in order of time and zeros after them (on the full shelf in order of number), scratch zeros.
 * After 1 to 6: out and scratch are as they were. After 7 to 10: out and scratch are zeros.
 */
uint32_t vault_decode(uint32_t k, uint32_t s, uint32_t c,
                      const uint8_t *image, size_t image_len,
                      const uint8_t *gaps, size_t gaps_len,
                      uint32_t shelf,
                      uint32_t *out, size_t out_len,
                      uint32_t *scratch, size_t scratch_len);

/*
 * Recovery: all records from an image, of which the bytes that the gap list covers are lost. The full shelf is decoded, and the filled levels are laid over it
 * from level k - 1 down to 0. Empty levels are not looked at.
 *
 * Lengths: image VAULT_IMAGE_BYTES, out VAULT_RAW_WORDS, scratch VAULT_SCRATCH_WORDS; gaps of any length (3 if it is not whole pairs).
 * Tests: 1 (k, s and c), 2 (image, out, scratch), 3, then 7, 8, 9, 10 on each shelf in the order in which they are decoded.
 * After 0: out holds the records, record i from word i * s on (of a struck one each word is VAULT_STRUCK_WORD), scratch zeros, and *shelf is VAULT_NO_SHELF.
 * After 1 to 3: out and scratch are as they were, and *shelf is VAULT_NO_SHELF.
 * After 7 to 10: out and scratch are zeros, and *shelf is the first shelf at fault: a level, or k for the full shelf.
 */
uint32_t vault_recover(uint32_t k, uint32_t s, uint32_t c,
                       const uint8_t *image, size_t image_len,
                       const uint8_t *gaps, size_t gaps_len,
                       uint32_t *out, size_t out_len,
                       uint32_t *scratch, size_t scratch_len,
                       uint32_t *shelf);

/*
 * Recovery from two readings of one rack: an image and a gap list each, under one plate. The two are compared first: a position of the full shelf or of a
 * filled level that is whole in both, but with other words (all four bytes of each count, strays too), is 13. Then each shelf is decoded in the reading that
 * has more of its positions whole, the first on a tie, and laid as vault_recover does.
 *
 * Lengths: each image VAULT_IMAGE_BYTES, out VAULT_RAW_WORDS, scratch VAULT_SCRATCH_WORDS; gap lists of any length (3 if one is not whole pairs).
 * Tests: 1 (k, s and c), 2 (image1, image2, out, scratch), 3 (either list), 13, then 7, 8, 9, 10 on each shelf in the order in which they are decoded.
 * After 0: out holds the records, record i from word i * s on, scratch zeros, and *shelf is VAULT_NO_SHELF.
 * After 1 to 3, and 13: out and scratch are as they were, and *shelf is VAULT_NO_SHELF.
 * After 7 to 10: out and scratch are zeros, and *shelf is the first shelf at fault: a level, or k for the full shelf.
 * The images may be one buffer, and so may the lists; with the same image and list twice it does what vault_recover does.
 */
uint32_t vault_recover_two(uint32_t k, uint32_t s, uint32_t c,
                           const uint8_t *image1, size_t image1_len,
                           const uint8_t *gaps1, size_t gaps1_len,
                           const uint8_t *image2, size_t image2_len,
                           const uint8_t *gaps2, size_t gaps2_len,
                           uint32_t *out, size_t out_len,
                           uint32_t *scratch, size_t scratch_len,
                           uint32_t *shelf);

/*
 * One shelf of two readings: where its bytes stand, in the image of the reading that vault_recover_two decodes it in.
 *
 * shelf is a level, 0 to k - 1, that is filled, or k for the full shelf.
 *
 * Lengths: each image VAULT_IMAGE_BYTES; gap lists of any length (3 if one is not whole pairs).
 * Tests: 1 (k, s and c), 2 (image1, image2), 3 (either list), 13 over the whole rack, then 6.
 * After 0: the shelf is the bytes *start to *start + *count - 1 of image1 if *reading is 0, and of image2 if it is 1.
 * After any other number: *reading, *start and *count are 0.
 */
uint32_t vault_shelf_of_two(uint32_t k, uint32_t s, uint32_t c,
                            const uint8_t *image1, size_t image1_len,
                            const uint8_t *gaps1, size_t gaps1_len,
                            const uint8_t *image2, size_t image2_len,
                            const uint8_t *gaps2, size_t gaps2_len,
                            uint32_t shelf,
                            uint32_t *reading, size_t *start, size_t *count);

/*
 * Explaining a recovery: how many positions each needed shelf has left and how many more would do, and where each record comes from. Needed are the full
 * shelf and the filled levels. A position is lost if a gap touches one of its bytes, and left otherwise, also where its words are stray.
 *
 * Shelf j, 0 to k, has the words counts[2j], the positions left, and counts[2j + 1], the shortfall: how many more would be half of its positions, 0 if half or
 * more are left. Both are 0 if the shelf is not needed.
 * Record i has the words origins[2i], the level that holds the last write to it in the round, and origins[2i + 1], the number of that write in the round, from
 * 0. They are k and 0 if the round has no write to it: then it comes from the full shelf.
 *
 * Lengths: image VAULT_IMAGE_BYTES, counts VAULT_COUNTS_WORDS, origins VAULT_ORIGINS_WORDS, scratch VAULT_SCRATCH_WORDS; gaps of any length (3 if it is not
 * whole pairs).
 * Tests: 1 (k, s and c), 2 (image, counts, origins, scratch), 3, then 7, 8, 9, 10 on each shelf in recovery's order. The number and *shelf are those that
 * vault_recover gives, for every image and every gap list.
 * After 0: counts and origins hold the answer, scratch zeros.
 * After 1 to 3: counts, origins and scratch are as they were.
 * After 7 to 10: counts holds the counts of all needed shelves, those behind the one at fault too; origins and scratch are zeros.
 */
uint32_t vault_explain(uint32_t k, uint32_t s, uint32_t c,
                       const uint8_t *image, size_t image_len,
                       const uint8_t *gaps, size_t gaps_len,
                       uint32_t *counts, size_t counts_len,
                       uint32_t *origins, size_t origins_len,
                       uint32_t *scratch, size_t scratch_len,
                       uint32_t *shelf);

/*
 * The image of a vault: the full shelf and then the log, each word 4 bytes, low byte first.
 *
 * Lengths: full VAULT_FULL_WORDS, log VAULT_LOG_WORDS, image VAULT_IMAGE_BYTES.
 * Tests: 1 (k, s and c), 2 (full, log, image).
 * After 0: image holds the image. After any other number: image is as it was.
 */
uint32_t vault_image(uint32_t k, uint32_t s, uint32_t c,
                     const uint32_t *full, size_t full_len,
                     const uint32_t *log, size_t log_len,
                     uint8_t *image, size_t image_len);

/*
 * The table of powers: powers[i] is (3^32)^i modulo 65537, for i from 0 to 2047. The root of a vault, of order 2n, is w = powers[1024 / n]; w^j is
 * powers[j * 1024 / n] for j from 0 to 2n - 1, and its inverse powers[2048 - j * 1024 / n] for j from 1.
 *
 * Lengths: powers VAULT_POWERS_WORDS.
 * Tests: 2 (powers).
 * After 0: powers holds the table. After 2: powers is as it was.
 */
uint32_t vault_powers(uint32_t *powers, size_t powers_len);

#ifdef __cplusplus
}
#endif

#endif
