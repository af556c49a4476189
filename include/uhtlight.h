/* Uhtlight: a store of 64 flash pages that tidies itself and may lose power between any two flash writes.
 *
 * WHAT IT PROMISES
 *
 * 1. Every call takes any bytes and any numbers, ends, stays within its buffers and refuses bad input with a number.
 * 2. Every call does exactly what its definition says: reply, values, numbers and every byte of each buffer. A refusal changes nothing, but a
 *    refused recovery (unless it is refused with UHTLIGHT_LENGTH) leaves the work pages zero.
 * 3. From a finished build, after any calls and any cuts, recovery is accepted; it leaves a well-formed tree, every unit that was begun and not
 *    lost with the log's end is complete, and the records are those of the start after these puts and deletes, exactly.
 *
 * Each is a theorem about the code in the library; docs/PROMISE.md says the third in full.
 *
 * WHAT YOU KEEP
 *
 *   work    16,384 bytes of RAM: the pages as they are now
 *   store   16,384 bytes: the pages as they are on the chip
 *   log      8,192 bytes: the log, records one after the other, zeros behind
 *   numbers  how many bytes of the log are used, and how many of these are forced
 *
 * Every call is lent what it needs and keeps nothing. The library has no memory of its own, and allocates none. A buffer is two arguments, where
 * it begins and how many bytes are lent. The pointer must be valid for so many bytes, to be written too where it isn't const, and the
 * buffers of one call, the numbers among them, may not overlap: that is all that a call cannot test.
 *
 * WHAT THE CHIP MUST DO
 *
 * - A page that is programmed is whole: after a cut it is the old page or the new one.
 * - The log keeps whole records from its front, in order; bytes that are not yet programmed read as zeros. A cut may lose unforced records from
 *   the log's end, none before it, and no forced one.
 * - A checkpoint's log replaces the old one in one piece: after a cut it is the old log or the new one. (With two areas for the log: the new
 *   check record goes to the area that is not in use; the area whose check record has the larger number is the log.)
 *
 * THE ORDER OF WRITES
 *
 * The calls change buffers; you program the chip. In this order:
 *
 *   begin, step   they append one record to the log. It may be programmed at once, later, or with others; always in the log's order.
 *   force         first program the log's bytes up to numbers.used, then call it: it sets numbers.forced to numbers.used.
 *   flush         call it for a page, then program that page of the store. It is refused with UHTLIGHT_UNFORCED while the record that changed
 *                 the page last is not forced.
 *   checkpoint    when all work pages are flushed and programmed: call it, then replace the chip's log by the new one.
 *
 * AT WAKE      read store and log from the chip, call uhtlight_recover. It finishes a unit that a cut has interrupted, so the log may be longer
 *              than the chip's: program it with the next force.
 * TO SAVE      one record, 16 bytes; to delete one, uhtlight_begin_delete with its key in the place of uhtlight_begin_put:
 *
 *                  uint8_t reply = uhtlight_begin_put(&numbers, work, sizeof work, log, sizeof log, record, sizeof record);
 *                  while (reply == UHTLIGHT_DONE)
 *                      reply = uhtlight_step(&numbers, work, sizeof work, log, sizeof log);
 *                  if (reply == UHTLIGHT_CLOSED) {
 *                      program_log(log, numbers.used);
 *                      reply = uhtlight_force(&numbers, log, sizeof log);
 *                  }
 *
 *              DONE: it is saved. ROOM: force, flush the pages that differ, checkpoint, and again. After a cut the record is saved whole
 *              where the chip has the begin record, the first that was appended, and not at all where it has not.
 * BEFORE SLEEP until UHTLIGHT_NOTHING: uhtlight_begin_compact, then uhtlight_step until UHTLIGHT_CLOSED; the same with uhtlight_begin_order.
 *              On UHTLIGHT_ROOM: force, flush the pages that differ, checkpoint, begin again. The supply may be cut anywhere.
 *
 * WORST CASES
 *
 *   a tidying unit     26 records, its begin and 25 steps, and 876 bytes of the log: 8 leaves with 15 records packed into a new place
 *   a put              5 records and 892 bytes: a leaf splits, or there was no leaf; else 3 records and 348 bytes
 *   a delete           6 records and 1,164 bytes: the first base page is emptied; 3 and 348 where its leaf keeps a record
 *   recovery           25 records appended
 *   stack, in bytes    recover 1,600; step 1,472; build 1,152; begin_put and begin_delete 896; begin_compact, begin_order and list 768;
 *                      range_next 256; the others 512
 *
 * The stack is what a call takes with its arguments, its answer and the return address. It is measured on x86-64 by tests/stack.c, which fails
 * where a call takes more; docs/PERFORMANCE.md has the figures.
 */
#ifndef UHTLIGHT_H
#define UHTLIGHT_H

#include <stdbool.h>
#include <stddef.h>
#include <stdint.h>

#ifdef __cplusplus
extern "C" {
#endif

enum {
    UHTLIGHT_PAGE = 256,          /* bytes of a page */
    UHTLIGHT_PAGES = 64,          /* pages of a store */
    UHTLIGHT_STORE_BYTES = 16384, /* bytes of work and store */
    UHTLIGHT_LOG_BYTES = 8192,    /* bytes of the log */
    UHTLIGHT_RECORD = 16,         /* bytes of a record: 'r', 'c', key (4, little-endian), value (10) */
    UHTLIGHT_RECORDS = 840        /* records that a store holds at most */
};

/* What a call replies. */
enum uhtlight_reply {
    UHTLIGHT_DONE = 0,
    UHTLIGHT_LENGTH = 1,    /* a lent buffer has the wrong length */
    UHTLIGHT_LOG = 2,       /* the log's form is broken, or the numbers do not fit it */
    UHTLIGHT_FORM = 3,      /* a page read breaks page form */
    UHTLIGHT_AHEAD = 4,     /* a store page is newer than the log's last record */
    UHTLIGHT_MISFIT = 5,    /* a record does not fit its page */
    UHTLIGHT_ROOM = 6,      /* the log cannot hold the whole unit: flush and checkpoint */
    UHTLIGHT_NUMBER = 7,    /* a log or unit number would pass 4,294,967,295 */
    UHTLIGHT_TREE = 8,      /* the tree is not well formed */
    UHTLIGHT_OPEN = 9,      /* a unit is open: step to its end first */
    UHTLIGHT_CLOSED = 10,   /* no unit is open */
    UHTLIGHT_NOTHING = 11,  /* nothing left to tidy */
    UHTLIGHT_RANGE = 12,    /* a fill or page number is out of range; record bytes are no multiple of 16, or a put's are not 16 */
    UHTLIGHT_UNFORCED = 13, /* the page's last record is not forced */
    UHTLIGHT_DIFFERS = 14,  /* a work page differs from the store */
    UHTLIGHT_ABSENT = 15,   /* no record has this key */
    UHTLIGHT_RECORD_BAD = 16, /* a record's mark is wrong, or keys do not ascend */
    UHTLIGHT_LARGE = 17,    /* too many records: over 56 leaves or 7 base pages */
    UHTLIGHT_CROWDED = 18   /* a put needs a new leaf, and no leaf page is empty or the base page is full: delete, or tidy */
};

/* Bytes of the log that are used, and that are forced. Lent to every call, which updates it. */
struct uhtlight_numbers {
    uint32_t used;
    uint32_t forced;
};

struct uhtlight_recovered {
    uint8_t reply;
    uint32_t count; /* records appended to finish a unit, at most 25 */
};

struct uhtlight_found {
    uint8_t reply;
    uint8_t value[10]; /* zeros beside a refusal */
};

struct uhtlight_listed {
    uint8_t reply;
    uint32_t count; /* records written */
    bool more;      /* records in range that did not fit remain */
};

/* A position of the range reader. It is yours to keep and to hand back, and holds no pointer. */
struct uhtlight_place {
    size_t root, base, entry, leaf, row;
};

struct uhtlight_reached {
    uint8_t reply;
    struct uhtlight_place at;
};

struct uhtlight_read {
    bool found;        /* a record stood there: the rest is zeros where none did */
    uint32_t key;
    uint8_t value[10];
    struct uhtlight_place next;
};

/* Makes a tree of the records, which ascend by key, in work and store alike, with a new log. leaf_fill 1..15 records a leaf, base_fill 1..30
 * leaves a base page. Replies 0, LENGTH, RANGE, RECORD_BAD, LARGE. */
uint8_t uhtlight_build(struct uhtlight_numbers *numbers, uint8_t *work, size_t work_bytes, uint8_t *store, size_t store_bytes, uint8_t *log,
    size_t log_bytes, const uint8_t *records, size_t records_bytes, uint32_t leaf_fill, uint32_t base_fill);

/* Copies store to work, repeats what the log holds beyond it, and finishes an open unit. Whatever work and numbers were is ignored.
 * Replies 0, LENGTH, LOG, FORM, AHEAD, CROWDED, ABSENT, MISFIT, ROOM, NUMBER, TREE. */
struct uhtlight_recovered uhtlight_recover(struct uhtlight_numbers *numbers, uint8_t *work, size_t work_bytes, const uint8_t *store,
    size_t store_bytes, uint8_t *log, size_t log_bytes);

/* Begins a unit that packs thin leaves together: fill 1..15 records a leaf, 0 means 12.
 * Replies 0, LENGTH, LOG, RANGE, OPEN, FORM, TREE, NOTHING, ROOM, NUMBER. */
uint8_t uhtlight_begin_compact(struct uhtlight_numbers *numbers, const uint8_t *work, size_t work_bytes, uint8_t *log, size_t log_bytes, uint32_t fill);

/* Begins a unit that puts a leaf where it belongs in key order. Replies 0, LENGTH, LOG, OPEN, FORM, TREE, NOTHING, ROOM, NUMBER. */
uint8_t uhtlight_begin_order(struct uhtlight_numbers *numbers, const uint8_t *work, size_t work_bytes, uint8_t *log, size_t log_bytes);

/* Begins a unit that saves a record: it replaces the one with its key, or is added; a full leaf splits.
 * Replies 0, LENGTH, LOG, RANGE, RECORD_BAD, OPEN, FORM, TREE, CROWDED, ROOM, NUMBER. */
uint8_t uhtlight_begin_put(struct uhtlight_numbers *numbers, const uint8_t *work, size_t work_bytes, uint8_t *log, size_t log_bytes,
    const uint8_t *record, size_t record_bytes);

/* Begins a unit that deletes the record with this key; a leaf left without records becomes an empty page.
 * Replies 0, LENGTH, LOG, OPEN, FORM, TREE, ABSENT, ROOM, NUMBER. */
uint8_t uhtlight_begin_delete(struct uhtlight_numbers *numbers, const uint8_t *work, size_t work_bytes, uint8_t *log, size_t log_bytes, uint32_t key);

/* The open unit's next step: one record, and one page changed or, at a tidying unit's end, none. A put or a delete changes its pages, up to
 * four, at its end alone. Replies 0, LENGTH, LOG, CLOSED, FORM, TREE, CROWDED, ABSENT, MISFIT, ROOM, NUMBER. */
uint8_t uhtlight_step(struct uhtlight_numbers *numbers, uint8_t *work, size_t work_bytes, uint8_t *log, size_t log_bytes);

/* Copies one work page to the store. Replies 0, LENGTH, LOG, RANGE, UNFORCED. */
uint8_t uhtlight_flush(struct uhtlight_numbers *numbers, const uint8_t *work, size_t work_bytes, uint8_t *store, size_t store_bytes,
    const uint8_t *log, size_t log_bytes, uint32_t page);

/* The log is programmed as far as it is used. Replies 0, LENGTH, LOG. */
uint8_t uhtlight_force(struct uhtlight_numbers *numbers, const uint8_t *log, size_t log_bytes);

/* Replaces the log by one check record. Packing goes on above the largest key that it moved last; with clear it starts again at the lowest key.
 * Replies 0, LENGTH, LOG, OPEN, DIFFERS, NUMBER. */
uint8_t uhtlight_checkpoint(struct uhtlight_numbers *numbers, const uint8_t *work, size_t work_bytes, const uint8_t *store, size_t store_bytes,
    uint8_t *log, size_t log_bytes, bool clear);

/* The value of the record with this key. Replies 0, LENGTH, LOG, OPEN, FORM, ABSENT. */
struct uhtlight_found uhtlight_find(struct uhtlight_numbers *numbers, const uint8_t *work, size_t work_bytes, const uint8_t *log, size_t log_bytes,
    uint32_t key);

/* The records with keys low to high, both included, in key order, as many as fit whole into room; bytes behind them stay.
 * Replies 0, LENGTH, LOG, OPEN, FORM, TREE. */
struct uhtlight_listed uhtlight_list(struct uhtlight_numbers *numbers, const uint8_t *work, size_t work_bytes, const uint8_t *log, size_t log_bytes,
    uint32_t low, uint32_t high, uint8_t *room, size_t room_bytes);

/* The range reader gives records one after the other in key order, with no room for them all. It is lent the work pages alone, so it does not
 * know whether a unit is open; in the midst of one the pages may be no tree.
 *
 *   struct uhtlight_reached start = uhtlight_range_start(work, sizeof work, 1000);
 *   struct uhtlight_read r = uhtlight_range_next(work, sizeof work, start.at);
 *   for (; r.found && r.key <= 2000; r = uhtlight_range_next(work, sizeof work, r.next))
 *       show(r.key, r.value);
 */

/* Where the first record stands whose key is at least this one. Replies 0, LENGTH, FORM, TREE; a refused reader's position gives no record. */
struct uhtlight_reached uhtlight_range_start(const uint8_t *work, size_t work_bytes, uint32_t key);

/* The record at a position, and the position after it. Lend the pages as they were at the start: on others, or with a position that was made
 * up, it gives a record that stands on some leaf page or none. */
struct uhtlight_read uhtlight_range_next(const uint8_t *work, size_t work_bytes, struct uhtlight_place at);

#ifdef __cplusplus
}
#endif

#endif
