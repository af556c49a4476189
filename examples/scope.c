/* A scope's store in a file, as if the file were its flash.
 *
 *   scope FILE [WRITES]
 *
 * Where FILE is missing, a store of sixty records is built first. Otherwise the scope wakes: it recovers what is in FILE. Then it finds two records,
 * lists all, saves a setup, tidies three units with force and flush, and makes a checkpoint. With WRITES the supply is cut after so many writes to
 * FILE: run it again, and see that nothing is lost, and that the setup is there whole or as it was before.
 *
 * FILE is 16,384 bytes of store pages, then two areas of 8,192 bytes for the log, so that a checkpoint's log can replace the old one in one
 * piece: it goes to the area that is not in use, and at wake the area whose check record has the larger number is the log. */
#include "../include/uhtlight.h"

/* What is used of the C library, declared here so that this file needs no headers but the compiler's own. */
typedef struct file file;
file *fopen(const char *name, const char *mode);
int fseek(file *f, long offset, int whence);
size_t fread(void *to, size_t size, size_t count, file *f);
size_t fwrite(const void *from, size_t size, size_t count, file *f);
int fflush(file *f);
int printf(const char *format, ...);
int atoi(const char *text);
void exit(int status);

static struct uhtlight_numbers numbers;
static uint8_t work[UHTLIGHT_STORE_BYTES];
static uint8_t store[UHTLIGHT_STORE_BYTES];
static uint8_t log_bytes[UHTLIGHT_LOG_BYTES];
static uint8_t room[UHTLIGHT_RECORD * UHTLIGHT_RECORDS];

enum { SETUP = 305 }; /* the key of the setup that is saved */
static char setup;    /* its letter when it was last looked for */

/* ---- the chip */

static file *chip;
static int area;            /* of the log: 0 or 1 */
static uint32_t programmed; /* bytes of the log that the chip has */
static int writes_left = -1;

static long area_at(int which) { return UHTLIGHT_STORE_BYTES + (long)which * UHTLIGHT_LOG_BYTES; }

static void stop(const char *why, unsigned reply)
{
    printf("%s: %u\n", why, reply);
    exit(1);
}

static void program(long at, const uint8_t *bytes, size_t count)
{
    if (writes_left == 0) {
        printf("supply cut\n");
        exit(0);
    }
    writes_left -= writes_left > 0;
    if (fseek(chip, at, 0) != 0 || fwrite(bytes, 1, count, chip) != count || fflush(chip) != 0)
        stop("the file cannot be written", 0);
}

static uint32_t number_of(const uint8_t *check)
{
    return check[4] | (uint32_t)check[5] << 8 | (uint32_t)check[6] << 16 | (uint32_t)check[7] << 24;
}

static const uint8_t cleared[UHTLIGHT_LOG_BYTES];

/* The log as far as it is used, a record at a time: a cut may come between any two. */
static void program_log(void)
{
    while (programmed < numbers.used) {
        const uint8_t *record = log_bytes + programmed;
        uint32_t length = record[2] | (uint32_t)record[3] << 8;
        program(area_at(area) + programmed, record, length);
        programmed += length;
    }
}

/* A log of one check record replaces the old one: the other area is cleared, and is the log as soon as it has the record. */
static void program_new_log(void)
{
    program(area_at(!area), cleared, sizeof cleared);
    area = !area;
    programmed = 0;
    program_log();
}

static void read_chip(void)
{
    uint8_t other[UHTLIGHT_LOG_BYTES];
    if (fseek(chip, 0, 0) != 0 || fread(store, 1, sizeof store, chip) != sizeof store || fread(log_bytes, 1, sizeof log_bytes, chip) != sizeof log_bytes
        || fread(other, 1, sizeof other, chip) != sizeof other)
        stop("the file cannot be read", 0);
    area = number_of(other) > number_of(log_bytes);
    for (size_t i = 0; area == 1 && i < sizeof other; i++)
        log_bytes[i] = other[i];
}

/* ---- the store's day */

static void build(void)
{
    uint8_t records[60 * UHTLIGHT_RECORD] = { 0 };
    for (uint32_t i = 0; i < 60; i++) {
        uint8_t *record = records + UHTLIGHT_RECORD * i;
        uint32_t key = 10 * (i + 1);
        record[0] = 'r';
        record[1] = 'c';
        record[2] = (uint8_t)key;
        record[3] = (uint8_t)(key >> 8);
        record[6] = (uint8_t)('a' + i % 26);
    }
    unsigned reply = uhtlight_build(&numbers, work, sizeof work, store, sizeof store, log_bytes, sizeof log_bytes, records, sizeof records, 5, 30);
    if (reply != UHTLIGHT_DONE)
        stop("build refused", reply);
    program(0, store, sizeof store);
    program(area_at(1), cleared, sizeof cleared);
    program(area_at(0), log_bytes, sizeof log_bytes);
    programmed = numbers.used;
    printf("built 60 records\n");
}

static void wake(void)
{
    read_chip();
    struct uhtlight_recovered r = uhtlight_recover(&numbers, work, sizeof work, store, sizeof store, log_bytes, sizeof log_bytes);
    if (r.reply != UHTLIGHT_DONE)
        stop("recovery refused", r.reply);
    programmed = numbers.forced;
    printf("recovered, %u records appended\n", (unsigned)r.count);
}

/* The first byte of this record's value, '-' where there is none. */
static char find(uint32_t key)
{
    struct uhtlight_found f = uhtlight_find(&numbers, work, sizeof work, log_bytes, sizeof log_bytes, key);
    char value = f.reply == UHTLIGHT_DONE ? (char)f.value[0] : '-';
    printf("find %u: reply %u, value %c\n", (unsigned)key, f.reply, value);
    return value;
}

static void look(void)
{
    find(300);
    setup = find(SETUP);
    struct uhtlight_listed l = uhtlight_list(&numbers, work, sizeof work, log_bytes, sizeof log_bytes, 0, UINT32_MAX, room, sizeof room);
    printf("list: reply %u, %u records, more %u\n", l.reply, (unsigned)l.count, l.more);
}

/* The log first, then the pages that differ. */
static void settle(void)
{
    program_log();
    unsigned reply = uhtlight_force(&numbers, log_bytes, sizeof log_bytes);
    if (reply != UHTLIGHT_DONE)
        stop("force refused", reply);
    for (uint32_t page = 0; page < UHTLIGHT_PAGES; page++) {
        const uint8_t *now = work + UHTLIGHT_PAGE * page, *then = store + UHTLIGHT_PAGE * page;
        bool same = true;
        for (int i = 0; i < UHTLIGHT_PAGE; i++)
            same = same && now[i] == then[i];
        if (same)
            continue;
        reply = uhtlight_flush(&numbers, work, sizeof work, store, sizeof store, log_bytes, sizeof log_bytes, page);
        if (reply != UHTLIGHT_DONE)
            stop("flush refused", reply);
        program((long)UHTLIGHT_PAGE * page, then, UHTLIGHT_PAGE);
    }
}

/* The log is empty again, once the store has all that the work pages have. */
static void renew_log(void)
{
    settle();
    unsigned reply = uhtlight_checkpoint(&numbers, work, sizeof work, store, sizeof store, log_bytes, sizeof log_bytes, false);
    if (reply != UHTLIGHT_DONE)
        stop("checkpoint refused", reply);
    program_new_log();
}

/* Steps to the open unit's end, each record programmed at once. */
static unsigned finish(void)
{
    unsigned steps = 0, reply;
    do {
        program_log();
        steps++;
    } while ((reply = uhtlight_step(&numbers, work, sizeof work, log_bytes, sizeof log_bytes)) == UHTLIGHT_DONE);
    if (reply != UHTLIGHT_CLOSED)
        stop("step refused", reply);
    return steps;
}

/* The setup is saved, one letter on from what it was. From the write of the unit's first record on it survives a cut. */
static void save(void)
{
    uint8_t record[UHTLIGHT_RECORD] = {'r', 'c', SETUP & 255, SETUP >> 8};
    record[6] = (uint8_t)(setup == '-' || setup == 'z' ? 'a' : setup + 1);
    unsigned reply;
    while ((reply = uhtlight_begin_put(&numbers, work, sizeof work, log_bytes, sizeof log_bytes, record, sizeof record)) == UHTLIGHT_ROOM)
        renew_log();
    if (reply != UHTLIGHT_DONE)
        stop("put refused", reply);
    printf("setup %u begun, value %c\n", SETUP, record[6]);
    unsigned steps = finish();
    settle();
    printf("setup %u saved in %u steps\n", SETUP, steps);
}

/* One unit: packing first, then order. False where nothing is left to tidy. */
static bool tidy(void)
{
    const char *what = "packed";
    unsigned reply = uhtlight_begin_compact(&numbers, work, sizeof work, log_bytes, sizeof log_bytes, 0);
    if (reply == UHTLIGHT_NOTHING) {
        what = "put in order";
        reply = uhtlight_begin_order(&numbers, work, sizeof work, log_bytes, sizeof log_bytes);
    }
    if (reply == UHTLIGHT_NOTHING)
        return false;
    if (reply != UHTLIGHT_DONE)
        stop("begin refused", reply);
    printf("a unit %s in %u steps\n", what, finish());
    settle();
    return true;
}

int main(int count, char **words)
{
    if (count < 2)
        stop("scope FILE [WRITES]", 0);
    if (count > 2)
        writes_left = atoi(words[2]);
    if ((chip = fopen(words[1], "r+b")) != NULL) {
        wake();
    } else {
        if ((chip = fopen(words[1], "w+b")) == NULL)
            stop("the file cannot be made", 0);
        build();
    }
    look();
    settle();
    save();
    for (int units = 0; units < 3 && tidy(); units++)
        ;
    renew_log();
    look();
    return 0;
}
