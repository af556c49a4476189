/* The range reader, over the library as a C program links it. Its last line is 'N passed, M failed'. The plan:
 *
 * 1. on 840 records scattered over the chip, from every key on and from its neighbours: a walk gives list's records, one after the other;
 * 2. with an empty store, and with pages that are refused: no record, and list's reply;
 * 3. positions that are made up, on these pages, on pages of rubbish and on lengths that are wrong: a record that is given stands on the page
 *    and in the row that the position names, and nothing else is read. */
#include "state.h"

int printf(const char *format, ...);

enum { LEAVES = 56, LEAF_FILL = 15, BASE_FILL = 30, APART = 10, RECORDS = UHTLIGHT_RECORDS, WILD = 200000 };

static struct state now;
static uint8_t records[RECORDS * UHTLIGHT_RECORD], room[RECORDS * UHTLIGHT_RECORD];
static unsigned long passed, failed, given;

static void check(bool ok, const char *what, unsigned long at)
{
    passed += ok;
    failed += !ok;
    if (!ok)
        printf("%s: %lu\n", what, at);
}

static uint32_t number(const uint8_t *at) { return at[0] | (uint32_t)at[1] << 8 | (uint32_t)at[2] << 16 | (uint32_t)at[3] << 24; }

/* The record is the one that these bytes hold. */
static bool is(const struct uhtlight_read *r, const uint8_t *record)
{
    bool ok = r->found && r->key == number(record + 2);
    for (size_t i = 0; i < sizeof r->value; i++)
        ok = ok && r->value[i] == record[6 + i];
    return ok;
}

static bool nothing(const struct uhtlight_read *r)
{
    bool ok = !r->found && r->key == 0 && r->next.leaf == 0;
    for (size_t i = 0; i < sizeof r->value; i++)
        ok = ok && r->value[i] == 0;
    return ok;
}

/* A walk from a key on gives what list gives from there to the end. */
static void try_walk(uint32_t key)
{
    struct uhtlight_listed l = uhtlight_list(&now.numbers, now.work, sizeof now.work, now.log, sizeof now.log, key, UINT32_MAX, room, sizeof room);
    struct uhtlight_reached start = uhtlight_range_start(now.work, sizeof now.work, key);
    bool ok = l.reply == start.reply;
    struct uhtlight_read r = uhtlight_range_next(now.work, sizeof now.work, start.at);
    for (uint32_t i = 0; i < l.count; i++) {
        ok = ok && is(&r, room + UHTLIGHT_RECORD * i);
        r = uhtlight_range_next(now.work, sizeof now.work, r.next);
        given++;
    }
    check(ok && nothing(&r), "a walk differs from list, from key", key);
}

static void try_refused(size_t bytes, uint8_t reply)
{
    struct uhtlight_reached start = uhtlight_range_start(now.work, bytes, 0);
    struct uhtlight_read r = uhtlight_range_next(now.work, sizeof now.work, start.at);
    check(start.reply == reply && nothing(&r), "not refused with", reply);
}

/* ---- positions that are made up */

static uint64_t drawn = 1;

static uint64_t draw(void)
{
    drawn = drawn * 6364136223846793005u + 1442695040888963407u;
    return drawn >> 33;
}

/* Small, at an end of what a field may be, or anything. */
static size_t any(size_t most)
{
    switch (draw() % 4) {
    case 0: return SIZE_MAX - draw() % 3;
    case 1: return (size_t)(draw() << 40 ^ draw() << 20 ^ draw());
    default: return draw() % (most + 2);
    }
}

static void try_wild(size_t bytes)
{
    struct uhtlight_place at = {any(30), any(63), any(30), any(63), any(15)};
    struct uhtlight_read r = uhtlight_range_next(now.work, bytes, at);
    bool ok = nothing(&r);
    if (r.found) {
        given++;
        ok = bytes == sizeof now.work && at.leaf < UHTLIGHT_PAGES && at.row < LEAF_FILL
            && is(&r, now.work + UHTLIGHT_PAGE * at.leaf + 16 + UHTLIGHT_RECORD * at.row);
    }
    check(ok, "a position that was made up", at.leaf);
}

static size_t place(size_t leaf) { return FIRST_LEAF + 11 * leaf % LEAVES; }

int main(void)
{
    make_records(records, RECORDS, APART);
    check(build(&now, records, 0, LEAF_FILL, BASE_FILL) == UHTLIGHT_DONE, "build refused", 0);
    try_walk(0);
    try_walk(UINT32_MAX);
    check(build(&now, records, sizeof records, LEAF_FILL, BASE_FILL) == UHTLIGHT_DONE, "build refused", RECORDS);
    scatter(&now, LEAVES, BASE_FILL, place);
    check(recover(&now).reply == UHTLIGHT_DONE, "the start is no store", 0);
    for (uint32_t key = 0; key < APART * RECORDS; key += APART / 2) {
        try_walk(key);
        try_walk(key + 1);
    }
    try_walk(UINT32_MAX);
    unsigned long walked = given;
    try_refused(sizeof now.work - 1, UHTLIGHT_LENGTH);
    try_refused(0, UHTLIGHT_LENGTH);
    for (int i = 0; i < WILD; i++)
        try_wild(sizeof now.work - (i % 16 == 0));
    now.work[UHTLIGHT_PAGE] ^= 1;
    try_refused(sizeof now.work, UHTLIGHT_FORM);
    now.work[UHTLIGHT_PAGE] ^= 1;
    now.work[UHTLIGHT_PAGE + 18] ^= 1;
    try_refused(sizeof now.work, UHTLIGHT_TREE);
    for (size_t i = 0; i < sizeof now.work; i++)
        if (i % UHTLIGHT_PAGE != 1)
            now.work[i] = draw() % 4 == 0 ? 0 : (uint8_t)(draw() % 40);
    for (int i = 0; i < WILD; i++)
        try_wild(sizeof now.work);
    printf("records walked through %lu, given at positions made up %lu\n", walked, given - walked);
    printf("%lu passed, %lu failed\n", passed, failed);
    return failed != 0;
}
