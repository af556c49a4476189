/* What the C tests over the library have in common: all that a store is, its records, and a tree whose leaves are scattered over the chip. */
#include "../include/uhtlight.h"

enum { FIRST_LEAF = 8 };

/* All that a store is. */
struct state {
    struct uhtlight_numbers numbers;
    uint8_t work[UHTLIGHT_STORE_BYTES];
    uint8_t store[UHTLIGHT_STORE_BYTES];
    uint8_t log[UHTLIGHT_LOG_BYTES];
};

static void copy(uint8_t *to, const uint8_t *from, size_t count)
{
    for (size_t i = 0; i < count; i++)
        to[i] = from[i];
}

static inline uint8_t build(struct state *s, const uint8_t *records, size_t bytes, uint32_t leaf_fill, uint32_t base_fill)
{
    return uhtlight_build(&s->numbers, s->work, sizeof s->work, s->store, sizeof s->store, s->log, sizeof s->log, records, bytes, leaf_fill, base_fill);
}

static inline struct uhtlight_recovered recover(struct state *s)
{
    return uhtlight_recover(&s->numbers, s->work, sizeof s->work, s->store, sizeof s->store, s->log, sizeof s->log);
}

/* Records with the keys 0, apart, 2 apart, .., each with a value of its own. */
static void make_records(uint8_t *records, uint32_t count, uint32_t apart)
{
    for (uint32_t i = 0; i < count; i++) {
        uint8_t *record = records + UHTLIGHT_RECORD * i;
        uint32_t key = apart * i;
        record[0] = 'r';
        record[1] = 'c';
        record[2] = (uint8_t)key;
        record[3] = (uint8_t)(key >> 8);
        for (uint8_t b = 0; b < 10; b++)
            record[6 + b] = (uint8_t)(7 * i + b);
    }
}

/* Leaf i, built on page 8 + i, goes to the page that place tells, in the store; base_fill leaves are below one base page. */
static void scatter(struct state *s, size_t leaves, size_t base_fill, size_t (*place)(size_t leaf))
{
    static uint8_t built[UHTLIGHT_STORE_BYTES];
    copy(built, s->store, sizeof built);
    for (size_t p = FIRST_LEAF; p < UHTLIGHT_PAGES; p++) {
        uint8_t *page = s->store + UHTLIGHT_PAGE * p;
        for (size_t i = 0; i < UHTLIGHT_PAGE; i++)
            page[i] = i < 2 ? "pe"[i] : 0;
    }
    for (size_t i = 0; i < leaves; i++) {
        size_t to = place(i);
        copy(s->store + UHTLIGHT_PAGE * to, built + UHTLIGHT_PAGE * (FIRST_LEAF + i), UHTLIGHT_PAGE);
        uint8_t *base = s->store + UHTLIGHT_PAGE * (1 + i / base_fill);
        base[16 + 8 * (i % base_fill) + 6] = (uint8_t)to;
    }
}
