/* How much stack each call takes, over the library as a C program links it, and how long the largest unit is. Its last line is 'N passed, M
 * failed': no call may take more than include/uhtlight.h says.
 *
 * A call is made by a function that does nothing else and runs on a stack of its own, painted before. What is not the paint any more afterwards is
 * what the call takes, with its arguments and its answer where these are on the stack. The most of many calls counts: whole tidyings of thin
 * and of full leaves on trees scattered over the chip, with recoveries after every step, of harmed bytes too, every refusal that comes on the
 * way, and reads of every kind after every unit; and puts and deletes of every shape, with the same recoveries. */
#include "state.h"

int printf(const char *format, ...);

enum { LEAVES = 56, BASE_FILL = 30, FULL = 15, APART = 10, RECORDS = UHTLIGHT_RECORDS, STACK = 65536, PAINT = 0xc5 };

static struct state now, lost;
static uint8_t records[RECORDS * UHTLIGHT_RECORD], room[RECORDS * UHTLIGHT_RECORD];
static unsigned long passed, failed;

/* ---- one call on the painted stack */

static uint8_t stack[STACK] __attribute__((aligned(16)));

static size_t taken_by(void (*call)(void))
{
    for (size_t i = 0; i < STACK; i++)
        stack[i] = PAINT;
    __asm__ volatile("movq %%rsp, %%rbx\n\tmovq %0, %%rsp\n\tcall *%1\n\tmovq %%rbx, %%rsp"
                     :
                     : "r"(stack + STACK), "r"(call)
                     : "rax", "rbx", "rcx", "rdx", "rsi", "rdi", "r8", "r9", "r10", "r11", "xmm0", "xmm1", "xmm2", "xmm3", "xmm4", "xmm5", "xmm6",
                     "xmm7", "xmm8", "xmm9", "xmm10", "xmm11", "xmm12", "xmm13", "xmm14", "xmm15", "memory", "cc");
    size_t lowest = 0;
    while (stack[lowest] == PAINT)
        lowest++;
    return STACK - lowest;
}

/* ---- the calls */

static struct state *on = &now;
static size_t bytes_lent = sizeof records, room_lent = sizeof room, record_lent = UHTLIGHT_RECORD;
static uint32_t fill, page, key, high;
static struct uhtlight_place at;
static uint8_t record[UHTLIGHT_RECORD] = {'r', 'c'};

static uint8_t reply;
static struct uhtlight_reached reached;
static struct uhtlight_read got;

#define WORK on->work, sizeof on->work
#define PAGES on->store, sizeof on->store
#define LOG on->log, sizeof on->log

static void call_build(void) { reply = uhtlight_build(&on->numbers, WORK, PAGES, LOG, records, bytes_lent, fill, BASE_FILL); }
static void call_recover(void) { reply = uhtlight_recover(&on->numbers, WORK, PAGES, LOG).reply; }
static void call_begin_compact(void) { reply = uhtlight_begin_compact(&on->numbers, WORK, LOG, fill); }
static void call_begin_order(void) { reply = uhtlight_begin_order(&on->numbers, WORK, LOG); }
static void call_begin_put(void) { reply = uhtlight_begin_put(&on->numbers, WORK, LOG, record, record_lent); }
static void call_begin_delete(void) { reply = uhtlight_begin_delete(&on->numbers, WORK, LOG, key); }
static void call_step(void) { reply = uhtlight_step(&on->numbers, WORK, LOG); }
static void call_flush(void) { reply = uhtlight_flush(&on->numbers, WORK, PAGES, LOG, page); }
static void call_force(void) { reply = uhtlight_force(&on->numbers, LOG); }
static void call_checkpoint(void) { reply = uhtlight_checkpoint(&on->numbers, WORK, PAGES, LOG, false); }
static void call_find(void) { reply = uhtlight_find(&on->numbers, WORK, LOG, key).reply; }
static void call_list(void) { reply = uhtlight_list(&on->numbers, WORK, LOG, key, high, room, room_lent).reply; }
static void call_range_start(void) { reached = uhtlight_range_start(WORK, key); }
static void call_range_next(void) { got = uhtlight_range_next(WORK, at); }

enum { BUILD, RECOVER, BEGIN_COMPACT, BEGIN_ORDER, BEGIN_PUT, BEGIN_DELETE, STEP, FLUSH, FORCE, CHECKPOINT, FIND, LIST, RANGE_START, RANGE_NEXT, CALLS };

/* Each call with the bytes that include/uhtlight.h says it takes at most. */
static struct {
    const char *name;
    void (*call)(void);
    size_t stated, most;
    unsigned long times;
} calls[CALLS] = {
    {"build", call_build, 1152, 0, 0},
    {"recover", call_recover, 1600, 0, 0},
    {"begin_compact", call_begin_compact, 768, 0, 0},
    {"begin_order", call_begin_order, 768, 0, 0},
    {"begin_put", call_begin_put, 896, 0, 0},
    {"begin_delete", call_begin_delete, 896, 0, 0},
    {"step", call_step, 1472, 0, 0},
    {"flush", call_flush, 512, 0, 0},
    {"force", call_force, 512, 0, 0},
    {"checkpoint", call_checkpoint, 512, 0, 0},
    {"find", call_find, 512, 0, 0},
    {"list", call_list, 768, 0, 0},
    {"range_start", call_range_start, 512, 0, 0},
    {"range_next", call_range_next, 256, 0, 0},
};

static uint8_t make(int which)
{
    size_t taken = taken_by(calls[which].call);
    if (taken > calls[which].most)
        calls[which].most = taken;
    calls[which].times++;
    return reply;
}

static void check(bool ok, const char *what, unsigned long at_what)
{
    passed += ok;
    failed += !ok;
    if (!ok)
        printf("%s: %lu\n", what, at_what);
}

/* ---- what is called */

/* The supply is cut here and now: recovery finishes what is open. Then again with a byte of the store or of the log harmed. */
static void wake(void)
{
    static size_t harmed;
    on = &lost;
    lost = now;
    make(RECOVER);
    for (int i = 0; i < 16; i++) {
        lost = now;
        harmed += 197;
        lost.store[harmed % sizeof lost.store] ^= i % 2;
        lost.log[harmed % now.numbers.used] ^= (i + 1) % 2;
        make(RECOVER);
    }
    on = &now;
}

/* Reads of every kind, between units and in the midst of one. */
static void read_all(void)
{
    for (key = 0; key < APART * RECORDS; key += 97 * APART) {
        make(FIND);
        make(RANGE_START);
        at = reached.at;
        for (int i = 0; i < 40; i++) {
            make(RANGE_NEXT);
            at = got.next;
        }
    }
    for (room_lent = 0; room_lent <= sizeof room; room_lent += sizeof room / 3) {
        key = 0;
        high = UINT32_MAX;
        make(LIST);
        key = 33 * APART;
        high = 500 * APART + 1;
        make(LIST);
        high = 0;
        make(LIST);
    }
}

static void settle(void)
{
    page = 1;
    make(FLUSH);
    make(CHECKPOINT);
    make(FORCE);
    for (page = 0; page <= UHTLIGHT_PAGES; page++)
        make(FLUSH);
    make(CHECKPOINT);
}

/* Records and log bytes of the longest unit. */
static uint32_t most_records, most_bytes;

/* One unit to its end, with a recovery after each record; false where it was not begun. */
static bool one_unit(int begin)
{
    uint32_t used = now.numbers.used, count = 1;
    if (make(begin) != UHTLIGHT_DONE)
        return false;
    make(BEGIN_PUT);
    make(BEGIN_DELETE);
    for (;;) {
        wake();
        make(FIND);
        if (make(STEP) != UHTLIGHT_DONE)
            break;
        count++;
    }
    if (count > most_records)
        most_records = count;
    if (now.numbers.used - used > most_bytes)
        most_bytes = now.numbers.used - used;
    return true;
}

/* Units of one kind to the end. */
static void tidy(int begin)
{
    for (;;) {
        if (one_unit(begin))
            read_all();
        else if (reply == UHTLIGHT_ROOM)
            settle();
        else
            return;
    }
}

/* A put of this key, or a delete, to its end; the log gets room where it has none. The last reply. */
static uint8_t save(int begin, uint32_t saved)
{
    key = saved;
    for (int i = 0; i < 4; i++)
        record[2 + i] = (uint8_t)(key >> 8 * i);
    while (!one_unit(begin) && reply == UHTLIGHT_ROOM)
        settle();
    return reply;
}

static void longest_is(uint32_t unit_records, uint32_t unit_bytes)
{
    check(most_records == unit_records, "records of the longest unit", most_records);
    check(most_bytes == unit_bytes, "log bytes of the longest unit", most_bytes);
}

static size_t falling(size_t leaf) { return FIRST_LEAF + LEAVES - 1 - leaf; }
static size_t behind(size_t leaf) { return UHTLIGHT_PAGES - 1 - 3 * leaf; }

/* A whole tidying of so many records, leaf_fill to a leaf, from a tree that is scattered; its longest unit has so many records and log bytes. */
static void whole(uint32_t count, uint32_t leaf_fill, size_t (*place)(size_t leaf), uint32_t packed, uint32_t unit_records, uint32_t unit_bytes)
{
    most_records = most_bytes = 0;
    bytes_lent = UHTLIGHT_RECORD * (size_t)count;
    fill = leaf_fill;
    check(make(BUILD) == UHTLIGHT_DONE, "build refused", count);
    scatter(&now, (count + leaf_fill - 1) / leaf_fill, BASE_FILL, place);
    check(make(RECOVER) == UHTLIGHT_DONE, "the start is no store", count);
    read_all();
    fill = packed;
    tidy(BEGIN_COMPACT);
    tidy(BEGIN_ORDER);
    settle();
    printf("%u records, %u to a leaf: the longest unit has %u records, %u bytes\n", count, leaf_fill, most_records, most_bytes);
    longest_is(unit_records, unit_bytes);
}

/* Puts into an empty tree, above and below all others in turn, until its base page is full. */
static void put_all(void)
{
    uint32_t puts = 0, low = APART * RECORDS, high = low;
    most_records = most_bytes = bytes_lent = 0;
    fill = 1;
    check(make(BUILD) == UHTLIGHT_DONE, "build refused", 0);
    while (save(BEGIN_PUT, puts % 2 == 0 ? (high += APART) : (low -= APART)) == UHTLIGHT_CLOSED)
        puts++;
    check(reply == UHTLIGHT_CROWDED, "not refused", reply);
    check(save(BEGIN_PUT, APART * RECORDS + APART) == UHTLIGHT_CLOSED, "a put that replaces refused", reply);
    read_all();
    printf("%u puts: the longest unit has %u records, %u bytes\n", puts, most_records, most_bytes);
    longest_is(5, 892);
}

/* A record to a leaf below two base pages: all are deleted, and then one more; the longest unit has so many records and log bytes. */
static void delete_all(bool from_the_last, uint32_t unit_records, uint32_t unit_bytes)
{
    most_records = most_bytes = 0;
    bytes_lent = UHTLIGHT_RECORD * LEAVES;
    fill = 1;
    check(make(BUILD) == UHTLIGHT_DONE, "build refused", LEAVES);
    for (uint32_t i = 0; i < LEAVES; i++)
        check(save(BEGIN_DELETE, APART * (from_the_last ? LEAVES - 1 - i : i)) == UHTLIGHT_CLOSED, "delete refused", reply);
    check(save(BEGIN_DELETE, 0) == UHTLIGHT_ABSENT, "not refused", reply);
    read_all();
    printf("%u deletes: the longest unit has %u records, %u bytes\n", LEAVES, most_records, most_bytes);
    longest_is(unit_records, unit_bytes);
}

int main(void)
{
    make_records(records, RECORDS, APART);
    whole(0, 1, falling, 0, 0, 0);
    whole(LEAVES, 1, falling, FULL, 23, 676);
    whole(LEAVES * 4, 4, falling, 0, 8, 588);
    /* full leaves: swaps of two, and a move of one */
    whole(RECORDS, FULL, falling, 0, 8, 684);
    whole(FULL, FULL, behind, 0, 5, 372);
    /* 8 leaves with 15 records, behind empty pages: packed into a new place, the largest unit that there is */
    whole(FULL, 2, behind, FULL, 26, 876);
    put_all();
    delete_all(true, 5, 892);
    /* the first base page is emptied: the largest of all in bytes */
    delete_all(false, 6, 1164);
    /* refusals of put, of build and of recovery */
    for (record_lent = 0; record_lent < sizeof record; record_lent += UHTLIGHT_RECORD - 1)
        check(make(BEGIN_PUT) == UHTLIGHT_RANGE, "not refused", reply);
    record_lent = UHTLIGHT_RECORD;
    record[0] = 0;
    check(make(BEGIN_PUT) == UHTLIGHT_RECORD_BAD, "not refused", reply);
    records[UHTLIGHT_RECORD] = 0;
    check(make(BUILD) == UHTLIGHT_RECORD_BAD, "not refused", reply);
    bytes_lent = 1;
    check(make(BUILD) == UHTLIGHT_RANGE, "not refused", reply);
    now.store[0] = 0;
    check(make(RECOVER) == UHTLIGHT_FORM, "not refused", reply);
    for (int which = 0; which < CALLS; which++) {
        check(calls[which].most <= calls[which].stated, calls[which].name, calls[which].most);
        printf("%-13s %4zu bytes, at most %4zu, in %lu calls\n", calls[which].name, calls[which].most, calls[which].stated, calls[which].times);
    }
    printf("%lu passed, %lu failed\n", passed, failed);
    return failed != 0;
}
