/* What the calls cost in time, over the library as a C program links it, beside what the machine needs at least.
 *
 *   time               times every case and prints nanoseconds, the floor beside it and their ratio
 *   time CASE COUNT    makes so many calls of one case and prints nothing, for a count of instructions
 *
 * A case is timed by the least of 80 batches; the cases take turns, so that what else the machine does meets all alike. A floor is measured
 * in the same run: 8,168 bytes tested for zero (a log with a check record alone has as many behind it), a plain search for a key over
 * three pages that tests nothing, a copy of 16,384 bytes. A call that changes something has what it changed put back after it: that is timed
 * as a case of its own and taken off.
 *
 * It is a benchmark: it decides nothing. Under an emulator its figures say nothing. */
#include "state.h"

struct moment {
    long seconds, nanoseconds;
};
int clock_gettime(int clock, struct moment *now);
int printf(const char *format, ...);
int strcmp(const char *a, const char *b);
int atoi(const char *text);
void exit(int status);
void *memcpy(void *to, const void *from, size_t count);

enum { RECORDS = UHTLIGHT_RECORDS, APART = 10, LEAVES = 56, LEAF_FILL = 15, BASE_FILL = 30, THIN = 5, ROUNDS = 80 };

static struct state ordered;  /* 840 records in key order on the chip, the log short */
static struct state falling;  /* the same in falling order */
static struct state logged;   /* falling, put in order until the log is full; nothing flushed */
static struct state thin;     /* 56 leaves of five records */
static struct state begun;    /* falling, with a unit begun */
static struct state scratch;  /* what a call may change, put back after it */
static uint8_t records[RECORDS * UHTLIGHT_RECORD], room[RECORDS * UHTLIGHT_RECORD];
static uint32_t in_a_row[RECORDS], at_random[RECORDS], one_key[RECORDS];
static size_t stepped; /* where the page stands that begun's next step changes */
static volatile uint8_t sink;

static void stop(const char *why)
{
    printf("%s\n", why);
    exit(1);
}

static void expect(bool ok, const char *what)
{
    if (!ok)
        stop(what);
}

/* ---- floors */

static __attribute__((noinline)) uint8_t gathered(const uint8_t *bytes, size_t count)
{
    uint8_t seen = 0;
    for (size_t i = 0; i < count; i++)
        seen |= bytes[i];
    return seen;
}

static uint32_t number(const uint8_t *at) { return at[0] | (uint32_t)at[1] << 8 | (uint32_t)at[2] << 16 | (uint32_t)at[3] << 24; }

/* The page that the last entry not above the key points to. */
static const uint8_t *below(const uint8_t *pages, const uint8_t *page, uint32_t key)
{
    const uint8_t *entry = page + 16 + 8 * (page[2] - 1);
    while (number(entry + 2) > key)
        entry -= 8;
    return pages + UHTLIGHT_PAGE * (size_t)entry[6];
}

static __attribute__((noinline)) uint8_t searched(const uint8_t *pages, uint32_t key)
{
    const uint8_t *record = below(pages, below(pages, pages, key), key) + 16;
    while (number(record + 2) != key)
        record += UHTLIGHT_RECORD;
    return record[6];
}

static void zero(unsigned i)
{
    (void)i;
    sink = gathered(ordered.log + 24, 8168);
}

static void search(unsigned i) { sink = searched(ordered.work, at_random[i % RECORDS]); }

static void copied(unsigned i)
{
    memcpy(scratch.work, ordered.work, sizeof scratch.work);
    sink = scratch.work[i % sizeof scratch.work];
}

/* ---- calls */

static void find(struct state *s, uint32_t key)
{
    sink = uhtlight_find(&s->numbers, s->work, sizeof s->work, s->log, sizeof s->log, key).reply;
}

static void find_one(unsigned i) { find(&ordered, one_key[i % RECORDS]); }
static void find_row(unsigned i) { find(&ordered, in_a_row[i % RECORDS]); }
static void find_random(unsigned i) { find(&ordered, at_random[i % RECORDS]); }
static void find_logged(unsigned i) { find(&logged, at_random[i % RECORDS]); }

static void list(unsigned i)
{
    (void)i;
    struct state *s = &ordered;
    sink = uhtlight_list(&s->numbers, s->work, sizeof s->work, s->log, sizeof s->log, 0, UINT32_MAX, room, sizeof room).reply;
}

static void recover_short(unsigned i)
{
    (void)i;
    sink = recover(&falling).reply;
}

static void recover_full(unsigned i)
{
    (void)i;
    sink = recover(&logged).reply;
}

static void checkpoint(unsigned i)
{
    (void)i;
    struct state *s = &ordered;
    sink = uhtlight_checkpoint(&s->numbers, s->work, sizeof s->work, s->store, sizeof s->store, s->log, sizeof s->log, false);
}

/* Takes back so many bytes from the log's end, at most as many as a begin record or an LO of 15 records has. */
static __attribute__((noinline)) void shorten(struct state *s, uint32_t used, uint32_t count)
{
    for (uint32_t i = 0; i < count; i++)
        s->log[used + i] = 0;
    s->numbers.used = used;
}

static void begin_order(unsigned i)
{
    (void)i;
    struct state *s = &falling;
    sink = uhtlight_begin_order(&s->numbers, s->work, sizeof s->work, s->log, sizeof s->log);
    shorten(s, 24, 44);
}

static void begin_compact(unsigned i)
{
    (void)i;
    struct state *s = &thin;
    sink = uhtlight_begin_compact(&s->numbers, s->work, sizeof s->work, s->log, sizeof s->log, 12);
    shorten(s, 24, 44);
}

static void begin_back(unsigned i)
{
    (void)i;
    shorten(&thin, 24, 44);
}

static void step_back(unsigned i)
{
    (void)i;
    memcpy(begun.work + stepped, falling.work + stepped, UHTLIGHT_PAGE);
    shorten(&begun, 24 + 44, 20 + 16 * LEAF_FILL);
}

static void step(unsigned i)
{
    struct state *s = &begun;
    sink = uhtlight_step(&s->numbers, s->work, sizeof s->work, s->log, sizeof s->log);
    step_back(i);
}

/* ---- cases */

enum { ZERO, SEARCH, COPY, BEGIN_BACK, STEP_BACK, FLOORS };

struct timed {
    const char *name;
    void (*call)(unsigned i);
    unsigned batch;
    int floors[2]; /* the floors beside it, -1: none */
    int back;      /* what puts back what it changes, -1: nothing does */
    double least;
};

static struct timed cases[] = {
    {"zero", zero, 2000, {-1, -1}, -1, 0},
    {"search", search, 5000, {-1, -1}, -1, 0},
    {"copy", copied, 500, {-1, -1}, -1, 0},
    {"begin_back", begin_back, 5000, {-1, -1}, -1, 0},
    {"step_back", step_back, 5000, {-1, -1}, -1, 0},
    {"find_one", find_one, RECORDS, {ZERO, SEARCH}, -1, 0},
    {"find_row", find_row, RECORDS, {ZERO, SEARCH}, -1, 0},
    {"find_random", find_random, RECORDS, {ZERO, SEARCH}, -1, 0},
    {"find_logged", find_logged, RECORDS, {ZERO, SEARCH}, -1, 0},
    {"list", list, 200, {ZERO, COPY}, -1, 0},
    {"recover_short", recover_short, 200, {ZERO, COPY}, -1, 0},
    {"recover_full", recover_full, 100, {ZERO, COPY}, -1, 0},
    {"begin_order", begin_order, 200, {ZERO, -1}, BEGIN_BACK, 0},
    {"begin_compact", begin_compact, 200, {ZERO, -1}, BEGIN_BACK, 0},
    {"step", step, 500, {ZERO, -1}, STEP_BACK, 0},
    {"checkpoint", checkpoint, 200, {ZERO, COPY}, -1, 0},
};

enum { CASES = sizeof cases / sizeof cases[0] };

static void make_calls(const struct timed *t, unsigned count)
{
    for (unsigned i = 0; i < count; i++)
        t->call(i);
}

static double now(void)
{
    struct moment m;
    clock_gettime(1, &m);
    return 1e9 * (double)m.seconds + (double)m.nanoseconds;
}

static void time_batch(struct timed *t)
{
    double began = now();
    make_calls(t, t->batch);
    double each = (now() - began) / t->batch;
    if (t->least == 0 || each < t->least)
        t->least = each;
}

static void print(const struct timed *t)
{
    double took = t->least - (t->back < 0 ? 0 : cases[t->back].least), least = 0;
    for (int i = 0; i < 2; i++)
        least += t->floors[i] < 0 ? 0 : cases[t->floors[i]].least;
    if (least > 0)
        printf("%-14s %8.1f ns  floor %7.1f  ratio %5.2f\n", t->name, took, least, took / least);
    else
        printf("%-14s %8.1f ns\n", t->name, took);
}

/* ---- the states */

static size_t fallen(size_t leaf) { return UHTLIGHT_PAGES - 1 - leaf; }

/* Units until the log cannot hold the next. */
static void fill_log(struct state *s)
{
    while (uhtlight_begin_order(&s->numbers, s->work, sizeof s->work, s->log, sizeof s->log) == UHTLIGHT_DONE)
        while (uhtlight_step(&s->numbers, s->work, sizeof s->work, s->log, sizeof s->log) == UHTLIGHT_DONE)
            ;
}

static void make_states(void)
{
    make_records(records, RECORDS, APART);
    expect(build(&ordered, records, sizeof records, LEAF_FILL, BASE_FILL) == UHTLIGHT_DONE, "build refused");
    falling = ordered;
    scatter(&falling, LEAVES, BASE_FILL, fallen);
    expect(recover(&falling).reply == UHTLIGHT_DONE, "the falling tree is no store");
    begun = logged = falling;
    fill_log(&logged);
    expect(recover(&logged).reply == UHTLIGHT_DONE && logged.numbers.used > 7000, "the log is not full");
    expect(uhtlight_begin_order(&begun.numbers, begun.work, sizeof begun.work, begun.log, sizeof begun.log) == UHTLIGHT_DONE, "begin refused");
    scratch = begun;
    expect(uhtlight_step(&scratch.numbers, scratch.work, sizeof scratch.work, scratch.log, sizeof scratch.log) == UHTLIGHT_DONE, "step refused");
    while (scratch.work[stepped + 1] == begun.work[stepped + 1])
        stepped += UHTLIGHT_PAGE;
    expect(build(&thin, records, UHTLIGHT_RECORD * THIN * LEAVES, THIN, BASE_FILL) == UHTLIGHT_DONE, "build refused");
    uint32_t drawn = 1;
    for (unsigned i = 0; i < RECORDS; i++) {
        drawn = 1664525 * drawn + 1013904223;
        one_key[i] = APART * (RECORDS / 2 - 1);
        in_a_row[i] = APART * i;
        at_random[i] = APART * ((drawn >> 8) % RECORDS);
    }
}

int main(int count, char **words)
{
    make_states();
    for (int i = 0; i < CASES; i++)
        if (count == 3 && strcmp(words[1], cases[i].name) == 0) {
            make_calls(&cases[i], (unsigned)atoi(words[2]));
            return 0;
        }
    expect(count == 1, "use: time [CASE COUNT]");
    for (int i = FLOORS; i < CASES; i++) {
        make_calls(&cases[i], 2);
        expect(sink == UHTLIGHT_DONE, cases[i].name);
    }
    for (int round = 0; round < ROUNDS; round++)
        for (int i = 0; i < CASES; i++)
            time_batch(&cases[i]);
    for (int i = 0; i < CASES; i++)
        print(&cases[i]);
    return 0;
}
