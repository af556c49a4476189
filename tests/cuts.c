/* Every cut of a whole tidying with saves among its units, over the library as a C program links it.
 *
 *   cuts          tries every cut; its last line is 'N passed, M failed'
 *   cuts faulty   the same on a chip that also loses the last two forced records: some of it must fail
 *
 * A tree of 25 thin leaves is scattered over the chip, packed and put in order to the end, with force after each unit, flush after every second,
 * and a checkpoint when the log is full and at the end. Each unit up to the fortieth is followed by a put or a delete, about one leaf so that it
 * splits, which is forced with the next unit only. At last all records are deleted, from both ends in turn, and one is put again. After each
 * write (a record appended, a force, a page flushed, a checkpoint) the supply is cut in every way that the chip allows: so many of the
 * unforced records are kept. Recovery must be accepted and find exactly the starting records after the puts and deletes whose begin record is
 * kept. Then recovery itself is cut after each of the records that it appended, and the one that follows must leave the very same pages
 * and log. */
#include "state.h"

int printf(const char *format, ...);

enum { LEAVES = 25, FILL = 4, RECORDS = LEAVES * FILL, UNDER = 7, SPREAD = 40, STRIDE = 11 };
enum { APART = 3, SAVES = 40, FROM = 100, ABOUT = 41, IN_A_LOG = UHTLIGHT_LOG_BYTES / 348, PAGES_OF_A_SAVE = 4 };

/* The records of the tree in key order. */
struct held {
    uint32_t from; /* where the begin record ends that made them so: they are there where the log is kept up to it */
    size_t count;
    uint8_t records[(RECORDS + SAVES) * UHTLIGHT_RECORD];
};

static struct state now;
static struct held held[IN_A_LOG + 1]; /* of the log's puts and deletes, one after the other; before them the records at its check record */
static size_t saves_in_log;
static unsigned long writes, cuts, inner_cuts, passed, failed;
static bool faulty;

static bool same(const uint8_t *a, const uint8_t *b, size_t count)
{
    for (size_t i = 0; i < count; i++)
        if (a[i] != b[i])
            return false;
    return true;
}

static void check(bool ok, const char *what)
{
    passed += ok;
    failed += !ok;
    if (!ok && !faulty)
        printf("after write %lu: %s\n", writes, what);
}

static uint32_t record_length(const uint8_t *log, uint32_t at) { return log[at + 2] | (uint32_t)log[at + 3] << 8; }

/* ---- a cut */

/* The supply is cut: the log keeps its first bytes, work pages and numbers are anything. */
static void cut(struct state *s, uint32_t kept)
{
    for (uint32_t i = kept; i < sizeof s->log; i++)
        s->log[i] = 0;
    for (size_t i = 0; i < sizeof s->work; i++)
        s->work[i] = 0xa5;
    s->numbers.used = s->numbers.forced = 0xa5a5a5a5;
}

static uint32_t key_of(const uint8_t *record) { return record[2] | (uint32_t)record[3] << 8; }

/* The records that a log has which keeps its first bytes. */
static const struct held *held_by(uint32_t kept)
{
    size_t last = saves_in_log;
    while (held[last].from > kept)
        last--;
    return &held[last];
}

/* These records are there, by list and by some finds, and no others. */
static bool whole(struct state *s, const struct held *h)
{
    static uint8_t room[sizeof h->records + UHTLIGHT_RECORD];
    static uint32_t turn;
    struct uhtlight_listed l = uhtlight_list(&s->numbers, s->work, sizeof s->work, s->log, sizeof s->log, 0, UINT32_MAX, room, sizeof room);
    bool ok = l.reply == UHTLIGHT_DONE && l.count == h->count && !l.more && same(room, h->records, UHTLIGHT_RECORD * h->count);
    for (int i = 0; i < 3 && h->count > 0; i++) {
        turn += 37;
        const uint8_t *record = h->records + UHTLIGHT_RECORD * (turn % h->count);
        struct uhtlight_found f = uhtlight_find(&s->numbers, s->work, sizeof s->work, s->log, sizeof s->log, key_of(record));
        ok = ok && f.reply == UHTLIGHT_DONE && same(f.value, record + 6, sizeof f.value);
    }
    return ok;
}

/* A cut that keeps so many bytes of the log, and then every cut of the recovery that follows. */
static void try_cut(uint32_t kept)
{
    static struct state first, again;
    first = now;
    cut(&first, kept);
    struct uhtlight_recovered r = recover(&first);
    cuts++;
    check(r.reply == UHTLIGHT_DONE && r.count <= 25 && first.numbers.forced == kept && whole(&first, held_by(kept)), "recovery lost something");
    for (uint32_t at = kept; r.reply == UHTLIGHT_DONE && at < first.numbers.used; at += record_length(first.log, at)) {
        again = first;
        cut(&again, at);
        struct uhtlight_recovered second = recover(&again);
        inner_cuts++;
        check(second.reply == UHTLIGHT_DONE && again.numbers.used == first.numbers.used && same(again.work, first.work, sizeof first.work)
                && same(again.log, first.log, sizeof first.log),
            "a second recovery left something else");
    }
}

/* Every cut after the write just made. */
static void try_cuts(void)
{
    uint32_t kept = now.numbers.forced, last = 0, before = 0;
    writes++;
    for (uint32_t at = 0; faulty && at < kept; at += record_length(now.log, at)) {
        before = last;
        last = at;
    }
    if (faulty && before > 0)
        try_cut(before);
    for (;;) {
        try_cut(kept);
        if (kept == now.numbers.used)
            return;
        kept += record_length(now.log, kept);
    }
}

/* ---- the writes */

static bool accepted(uint8_t reply, const char *what)
{
    if (reply == UHTLIGHT_DONE)
        try_cuts();
    else
        check(false, what);
    return reply == UHTLIGHT_DONE;
}

static void force(void) { accepted(uhtlight_force(&now.numbers, now.log, sizeof now.log), "force refused"); }

static void flush_all(void)
{
    for (uint32_t page = 0; page < UHTLIGHT_PAGES; page++) {
        size_t at = UHTLIGHT_PAGE * (size_t)page;
        if (!same(now.work + at, now.store + at, UHTLIGHT_PAGE))
            accepted(uhtlight_flush(&now.numbers, now.work, sizeof now.work, now.store, sizeof now.store, now.log, sizeof now.log, page), "flush refused");
    }
}

static bool settle(void)
{
    force();
    flush_all();
    uint8_t reply = uhtlight_checkpoint(&now.numbers, now.work, sizeof now.work, now.store, sizeof now.store, now.log, sizeof now.log, false);
    if (reply == UHTLIGHT_DONE) {
        held[0] = held[saves_in_log];
        held[0].from = saves_in_log = 0;
    }
    return accepted(reply, "checkpoint refused");
}

/* Steps to the open unit's end; how many. */
static unsigned finish(void)
{
    unsigned steps = 0;
    uint8_t reply;
    for (; (reply = uhtlight_step(&now.numbers, now.work, sizeof now.work, now.log, sizeof now.log)) == UHTLIGHT_DONE; steps++)
        try_cuts();
    check(reply == UHTLIGHT_CLOSED, "step refused");
    return steps;
}

/* ---- saves */

static unsigned puts_by[PAGES_OF_A_SAVE + 1], deletes_by[PAGES_OF_A_SAVE + 1]; /* how many changed so many pages */

/* Where a key is, or would be. */
static size_t place_of(const struct held *h, uint32_t key)
{
    size_t at = 0;
    while (at < h->count && key_of(h->records + UHTLIGHT_RECORD * at) < key)
        at++;
    return at;
}

static bool has(const struct held *h, uint32_t key)
{
    size_t at = place_of(h, key);
    return at < h->count && key_of(h->records + UHTLIGHT_RECORD * at) == key;
}

static void with_record(struct held *h, const uint8_t *record)
{
    size_t at = UHTLIGHT_RECORD * place_of(h, key_of(record));
    if (!has(h, key_of(record)))
        for (size_t i = UHTLIGHT_RECORD * h->count++; i-- > at;)
            h->records[i + UHTLIGHT_RECORD] = h->records[i];
    copy(h->records + at, record, UHTLIGHT_RECORD);
}

static void without_key(struct held *h, uint32_t key)
{
    size_t at = UHTLIGHT_RECORD * place_of(h, key);
    h->count--;
    for (size_t i = at; i < UHTLIGHT_RECORD * h->count; i++)
        h->records[i] = h->records[i + UHTLIGHT_RECORD];
}

static uint8_t begin_save(const uint8_t *record, bool putting)
{
    return putting ? uhtlight_begin_put(&now.numbers, now.work, sizeof now.work, now.log, sizeof now.log, record, UHTLIGHT_RECORD)
                   : uhtlight_begin_delete(&now.numbers, now.work, sizeof now.work, now.log, sizeof now.log, key_of(record));
}

/* A put of this record, or a delete of its key, to its end. */
static void save(const uint8_t *record, bool putting)
{
    uint8_t reply = begin_save(record, putting);
    if (reply == UHTLIGHT_ROOM && settle())
        reply = begin_save(record, putting);
    if (reply == UHTLIGHT_DONE) {
        struct held *next = &held[saves_in_log + 1];
        *next = held[saves_in_log++];
        next->from = now.numbers.used;
        if (putting)
            with_record(next, record);
        else
            without_key(next, key_of(record));
    }
    if (!accepted(reply, "save refused"))
        return;
    unsigned steps = finish();
    if (steps > 0 && steps - 1 <= PAGES_OF_A_SAVE)
        (putting ? puts_by : deletes_by)[steps - 1]++;
}

static void put(uint32_t key, uint8_t value)
{
    uint8_t record[UHTLIGHT_RECORD] = {'r', 'c', (uint8_t)key, (uint8_t)(key >> 8)};
    record[UHTLIGHT_RECORD - 1] = value;
    save(record, true);
}

static void delete_at(size_t at)
{
    uint8_t record[UHTLIGHT_RECORD];
    copy(record, held[saves_in_log].records + UHTLIGHT_RECORD * at, sizeof record);
    save(record, false);
}

/* The save with this number: every fourth deletes a record, the others put one about one leaf, which may replace. */
static void save_one(unsigned number)
{
    if (number % 4 == 3)
        delete_at(31 * number % held[saves_in_log].count);
    else
        put(FROM + 7 * number % ABOUT, (uint8_t)number);
}

/* All records are deleted, from both ends in turn; one is put again. */
static void empty_and_begin(void)
{
    for (unsigned i = 0; held[saves_in_log].count > 0; i++) {
        delete_at(i % 2 == 0 ? 0 : held[saves_in_log].count - 1);
        force();
        if (i % 2 == 0)
            flush_all();
    }
    put(FROM, 0);
    force();
}

/* ---- the tidying */

static uint8_t begin(bool packing)
{
    return packing ? uhtlight_begin_compact(&now.numbers, now.work, sizeof now.work, now.log, sizeof now.log, 0)
                   : uhtlight_begin_order(&now.numbers, now.work, sizeof now.work, now.log, sizeof now.log);
}

/* Units of one kind to the end, the first of all with a save after each; how many. */
static unsigned tidy(bool packing)
{
    static unsigned saves;
    unsigned units = 0;
    for (;;) {
        uint8_t reply = begin(packing);
        if (reply == UHTLIGHT_ROOM && settle())
            continue;
        if (reply == UHTLIGHT_NOTHING)
            return units;
        if (!accepted(reply, "begin refused"))
            return units;
        finish();
        force();
        if (++units % 2 == 0)
            flush_all();
        if (saves < SAVES)
            save_one(saves++);
    }
}

/* ---- the start */

static size_t place(size_t leaf) { return FIRST_LEAF + STRIDE * leaf % SPREAD; }

int main(int count, char **words)
{
    (void)words;
    faulty = count > 1;
    held[0].count = RECORDS;
    make_records(held[0].records, RECORDS, APART);
    check(build(&now, held[0].records, RECORDS * UHTLIGHT_RECORD, FILL, UNDER) == UHTLIGHT_DONE, "build refused");
    scatter(&now, LEAVES, UNDER, place);
    check(recover(&now).reply == UHTLIGHT_DONE && whole(&now, &held[0]), "the start is no store");
    unsigned packed = tidy(true), ordered = tidy(false);
    settle();
    empty_and_begin();
    settle();
    printf("units packed %u, put in order %u, writes %lu\n", packed, ordered, writes);
    printf("puts of one page %u, of three %u; deletes of one page %u, of two %u, of three %u, of four %u\n", puts_by[1], puts_by[3], deletes_by[1],
        deletes_by[2], deletes_by[3], deletes_by[4]);
    check(puts_by[1] && puts_by[3] && deletes_by[1] && deletes_by[2] && deletes_by[3] && deletes_by[4], "a kind of save did not come");
    printf("cuts %lu, cuts inside a recovery %lu\n", cuts, inner_cuts);
    printf("%lu passed, %lu failed\n", passed, failed);
    return failed != 0;
}
