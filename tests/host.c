/* A host program in C over the archives: document 01's example, row 11 at its edge, kept bytes, the empty text; then the same example fed
 * record by record to a running state and to the sets, and as a text in pieces, and its totals at each moment; a garage with owned semaphores;
 * a planner's entries before it; lists for the lazy reckoning, and with home sets; the stack that calls need. */
#include <stdio.h>
#include <string.h>
#include <ucontext.h>

#include "../include/order.h"

static int passed, failed;

/* Document 01's example and its report. */
static const char text[] = "op=start task=0 on=1\nop=write task=0 on=5\nop=give task=0 on=2\nop=write task=0 on=6\nop=lost tasks=2\n"
                           "op=read task=1 on=5\nop=read task=1 on=6\nop=take task=1 on=2\nop=write task=1 on=5\nop=read task=2 on=5\n";
static const char report[] = "rec=0000002 task=0 var=5 verdict=clear with=0000000\nrec=0000004 task=0 var=6 verdict=clear with=0000000\n"
                             "rec=0000006 task=1 var=5 verdict=doubt with=0000002\nrec=0000007 task=1 var=6 verdict=race with=0000004\n"
                             "rec=0000009 task=1 var=5 verdict=clear with=0000000\nline=10 refused=6\n";

enum { TEXT = sizeof text - 1, REPORT = sizeof report - 1 };

static void check(const char *what, int ok) {
    if (ok) {
        passed++;
    } else {
        failed++;
        printf("FAILED: %s\n", what);
    }
}

static uint64_t report_of(const char *bytes, size_t len, uint8_t *out, size_t out_len) {
    return order_report((const uint8_t *)bytes, len, out, out_len);
}

/* Every byte of the memory is this one. */
static int all(const void *memory, size_t len, uint8_t byte) {
    const uint8_t *bytes = memory;
    for (size_t i = 0; i < len; i++) {
        if (bytes[i] != byte) return 0;
    }
    return 1;
}

/* The report of a text is just this, and the bytes after it stay. */
static void expect(const char *what, const char *bytes, size_t len, const char *expected) {
    static uint8_t out[4096];
    memset(out, 0xa5, sizeof out);
    uint64_t n = report_of(bytes, len, out, sizeof out);
    size_t count = strlen(expected);
    check(what, n == count && memcmp(out, expected, count) == 0 && all(out + count, sizeof out - count, 0xa5));
}

static void whole_texts(void) {
    expect("document 01's example", text, TEXT, report);
    expect("the same without the last LF", text, TEXT - 1, report);
    expect("the same once more: each call begins afresh", text, TEXT, report);
    expect("the empty text", "", 0, "");
    expect("one empty line", "\n", 1, "line=1 refused=1\n");
    expect("NUL and CR are just bytes", "op=read task=0 on=1\r\n\0\n", 23, "line=1 refused=1\nline=2 refused=1\n");
    expect("a needless leading zero", "op=read task=00 on=1", 20, "line=1 refused=1\n");
    expect("six digits", "op=read task=0 on=100000", 24, "line=1 refused=1\n");
    expect("five digits outside the series", "op=read task=0 on=99999", 23, "line=1 refused=3\n");
    expect("a mark's own range", "op=lost tasks=65536\nop=lost tasks=0\nop=lost tasks=1\n", 52, "line=1 refused=4\nline=2 refused=4\n");
}

static void row_11(void) {
    uint8_t memory[128];
    memset(memory, 7, sizeof memory);
    check("row 11 at 63 bytes", report_of("op=read task=0 on=1", 19, memory, 63) == ORDER_TOO_SMALL);
    check("row 11 leaves the memory untouched", all(memory, sizeof memory, 7));
    check("64 bytes are enough for a line", report_of("op=read task=0 on=1", 19, memory, 64) == 52);
    check("two lines want 128", report_of("\n\n", 2, memory, 127) == ORDER_TOO_SMALL);
    check("and have them", report_of("\n\n", 2, memory, 128) == 34);
    check("no line wants no memory", report_of("", 0, memory, 0) == 0);
}

/* The document's variables, and how many of their accesses are Clear, Race and Doubt where the example ends. */
static const struct {
    uint32_t variable, totals[3];
} totals[] = {{5, {2, 0, 1}}, {6, {1, 1, 0}}};

enum { VARIABLES = 64, TOTALS = sizeof totals / sizeof totals[0] };

/* A record and its answer. */
struct fed {
    uint8_t kind;
    uint32_t task, on, answer[3];
};

/* Document 01's example once more. The task of a mark is not looked at. */
static const struct fed example[] = {
    {ORDER_START, 0, 1, {ORDER_ACCEPTED, 1, 0}},
    {ORDER_WRITE, 0, 5, {ORDER_CLEAR, 2, 0}},
    {ORDER_GIVE, 0, 2, {ORDER_ACCEPTED, 3, 0}},
    {ORDER_WRITE, 0, 6, {ORDER_CLEAR, 4, 0}},
    {ORDER_LOST, 99, 2, {ORDER_ACCEPTED, 5, 0}},
    {ORDER_READ, 1, 5, {ORDER_DOUBT, 6, 2}},
    {ORDER_READ, 1, 6, {ORDER_RACE, 7, 4}},
    {ORDER_TAKE, 1, 2, {ORDER_ACCEPTED, 8, 0}},
    {ORDER_WRITE, 1, 5, {ORDER_CLEAR, 9, 0}},
    {ORDER_READ, 2, 5, {ORDER_REFUSED, 6, 0}},
};

/* Refused where the example ends, by each row but 5. */
static const struct fed refused[] = {
    {255, 0, 0, {ORDER_REFUSED, 1, 0}},
    {ORDER_READ, 16, 64, {ORDER_REFUSED, 2, 0}},
    {ORDER_GIVE, 0, UINT32_MAX, {ORDER_REFUSED, 3, 0}},
    {ORDER_LOST, 0, 65537, {ORDER_REFUSED, 4, 0}},
    {ORDER_SET, 2, 1, {ORDER_REFUSED, 6, 0}},
    {ORDER_START, 1, 0, {ORDER_REFUSED, 7, 0}},
    {ORDER_JOIN, 1, 1, {ORDER_REFUSED, 8, 0}},
    {ORDER_JOIN, 1, 2, {ORDER_REFUSED, 9, 0}},
    {ORDER_LOST, 0, 4, {ORDER_REFUSED, 9, 0}},
};

enum { RECORDS = sizeof example / sizeof example[0], REFUSED = sizeof refused / sizeof refused[0], BEHIND = 3 };

/* A garage with owned semaphores: what is refused before the ORDER_OWNED does not make it late; then each of rows 14 to 16, and rows that go
 * before them. */
static const struct fed garage[] = {
    {ORDER_OWNED, 1, 0, {ORDER_REFUSED, 6, 0}},
    {ORDER_OWNED, 0, 1, {ORDER_REFUSED, 3, 0}},
    {ORDER_OWNED, 16, 0, {ORDER_REFUSED, 2, 0}},
    {ORDER_OWNED, 0, 0, {ORDER_ACCEPTED, 1, 0}},
    {ORDER_OWNED, 0, 0, {ORDER_REFUSED, 14, 0}},
    {ORDER_OWNED, 0, UINT32_MAX, {ORDER_REFUSED, 3, 0}},
    {ORDER_START, 0, 1, {ORDER_ACCEPTED, 2, 0}},
    {ORDER_OWNED, 1, 0, {ORDER_REFUSED, 14, 0}},
    {ORDER_OWNED, 2, 0, {ORDER_REFUSED, 6, 0}},
    {ORDER_GIVE, 0, 31, {ORDER_REFUSED, 16, 0}},
    {ORDER_TAKE, 0, 31, {ORDER_ACCEPTED, 3, 0}},
    {ORDER_TAKE, 0, 31, {ORDER_REFUSED, 16, 0}},
    {ORDER_TAKE, 1, 31, {ORDER_REFUSED, 16, 0}},
    {ORDER_GIVE, 1, 31, {ORDER_REFUSED, 16, 0}},
    {ORDER_MISS, 1, 31, {ORDER_ACCEPTED, 4, 0}},
    {ORDER_WRITE, 0, 5, {ORDER_CLEAR, 5, 0}},
    {ORDER_LOST, 77, 3, {ORDER_REFUSED, 15, 0}},
    {ORDER_LOST, 0, 0, {ORDER_REFUSED, 4, 0}},
    {ORDER_LOST, 0, 4, {ORDER_REFUSED, 9, 0}},
    {ORDER_READ, 1, 5, {ORDER_RACE, 6, 5}},
    {ORDER_GIVE, 0, 31, {ORDER_ACCEPTED, 7, 0}},
    {ORDER_TAKE, 1, 31, {ORDER_ACCEPTED, 8, 0}},
    {ORDER_READ, 1, 5, {ORDER_CLEAR, 9, 0}},
    {ORDER_TAKE, 1, 0, {ORDER_ACCEPTED, 10, 0}},
    {ORDER_GIVE, 1, 31, {ORDER_ACCEPTED, 11, 0}},
    {ORDER_TAKE, 1, 31, {ORDER_ACCEPTED, 12, 0}},
    {ORDER_JOIN, 0, 1, {ORDER_ACCEPTED, 13, 0}},
    {ORDER_TAKE, 0, 31, {ORDER_REFUSED, 16, 0}},
    {ORDER_GIVE, 0, 0, {ORDER_REFUSED, 16, 0}},
    {ORDER_GIVE, 1, 0, {ORDER_REFUSED, 6, 0}},
    {ORDER_WRITE, 0, 5, {ORDER_CLEAR, 14, 0}},
};

/* An ORDER_OWNED in the midst, by any task: all are free there, gives before it reach takes after it but are never the last give, and what was
 * lost before it stays lost. */
static const struct fed changed[] = {
    {ORDER_START, 0, 1, {ORDER_ACCEPTED, 1, 0}},
    {ORDER_TAKE, 0, 3, {ORDER_ACCEPTED, 2, 0}},
    {ORDER_TAKE, 1, 3, {ORDER_ACCEPTED, 3, 0}},
    {ORDER_WRITE, 1, 6, {ORDER_CLEAR, 4, 0}},
    {ORDER_GIVE, 1, 4, {ORDER_ACCEPTED, 5, 0}},
    {ORDER_WRITE, 0, 5, {ORDER_CLEAR, 6, 0}},
    {ORDER_LOST, 0, 3, {ORDER_ACCEPTED, 7, 0}},
    {ORDER_OWNED, 2, 0, {ORDER_REFUSED, 6, 0}},
    {ORDER_OWNED, 1, 0, {ORDER_ACCEPTED, 8, 0}},
    {ORDER_OWNED, 1, 0, {ORDER_REFUSED, 14, 0}},
    {ORDER_OWNED, 0, 0, {ORDER_REFUSED, 14, 0}},
    {ORDER_LOST, 0, 3, {ORDER_REFUSED, 15, 0}},
    {ORDER_GIVE, 0, 3, {ORDER_REFUSED, 16, 0}},
    {ORDER_READ, 1, 5, {ORDER_DOUBT, 9, 6}},
    {ORDER_TAKE, 0, 4, {ORDER_ACCEPTED, 10, 0}},
    {ORDER_READ, 0, 6, {ORDER_CLEAR, 11, 0}},
    {ORDER_GIVE, 0, 4, {ORDER_ACCEPTED, 12, 0}},
    {ORDER_TAKE, 1, 4, {ORDER_ACCEPTED, 13, 0}},
    {ORDER_TAKE, 0, 4, {ORDER_REFUSED, 16, 0}},
    {ORDER_GIVE, 1, 4, {ORDER_ACCEPTED, 14, 0}},
    {ORDER_TAKE, 1, 4, {ORDER_ACCEPTED, 15, 0}},
    {ORDER_READ, 1, 5, {ORDER_CLEAR, 16, 0}},
    {ORDER_TAKE, 0, 3, {ORDER_ACCEPTED, 17, 0}},
};

/* Takes that are skipped: by both tasks, with another semaphore held, after what is refused and after a miss; and takes after the other's give. */
static const struct fed again[] = {
    {ORDER_OWNED, 0, 0, {ORDER_ACCEPTED, 1, 0}},
    {ORDER_START, 0, 1, {ORDER_ACCEPTED, 2, 0}},
    {ORDER_TAKE, 0, 0, {ORDER_ACCEPTED, 3, 0}},
    {ORDER_TAKE, 0, 3, {ORDER_ACCEPTED, 4, 0}},
    {ORDER_WRITE, 0, 5, {ORDER_CLEAR, 5, 0}},
    {ORDER_GIVE, 0, 3, {ORDER_ACCEPTED, 6, 0}},
    {ORDER_GIVE, 1, 3, {ORDER_REFUSED, 16, 0}},
    {ORDER_TAKE, 0, 3, {ORDER_ACCEPTED, 7, 0}},
    {ORDER_TAKE, 0, 3, {ORDER_REFUSED, 16, 0}},
    {ORDER_GIVE, 0, 3, {ORDER_ACCEPTED, 8, 0}},
    {ORDER_MISS, 1, 3, {ORDER_ACCEPTED, 9, 0}},
    {ORDER_TAKE, 0, 3, {ORDER_ACCEPTED, 10, 0}},
    {ORDER_WRITE, 0, 6, {ORDER_CLEAR, 11, 0}},
    {ORDER_GIVE, 0, 3, {ORDER_ACCEPTED, 12, 0}},
    {ORDER_TAKE, 1, 3, {ORDER_ACCEPTED, 13, 0}},
    {ORDER_READ, 1, 6, {ORDER_CLEAR, 14, 0}},
    {ORDER_GIVE, 1, 3, {ORDER_ACCEPTED, 15, 0}},
    {ORDER_TAKE, 1, 3, {ORDER_ACCEPTED, 16, 0}},
    {ORDER_WRITE, 1, 6, {ORDER_CLEAR, 17, 0}},
    {ORDER_GIVE, 1, 3, {ORDER_ACCEPTED, 18, 0}},
    {ORDER_WRITE, 1, 7, {ORDER_CLEAR, 19, 0}},
    {ORDER_TAKE, 0, 3, {ORDER_ACCEPTED, 20, 0}},
    {ORDER_READ, 0, 6, {ORDER_CLEAR, 21, 0}},
    {ORDER_READ, 0, 7, {ORDER_RACE, 22, 19}},
    {ORDER_GIVE, 0, 0, {ORDER_ACCEPTED, 23, 0}},
    {ORDER_TAKE, 0, 0, {ORDER_ACCEPTED, 24, 0}},
};

/* The clocks or the sets: their calls, and memory for two states and for a copy. */
struct way {
    const char *name;
    void (*begin)(void *state);
    void (*feed)(void *state, uint8_t kind, uint32_t task, uint32_t on, uint32_t answer[3]);
    uint32_t (*totals)(const void *state, uint32_t variable, uint32_t totals[3]);
    uint32_t (*any_race)(const void *state);
    size_t size;
    void *one, *two, *copy;
};

static void begin_clocks(void *state) { order_state_begin(state); }
static void feed_clocks(void *state, uint8_t kind, uint32_t task, uint32_t on, uint32_t answer[3]) {
    order_state_feed(state, kind, task, on, answer);
}
static void feed_whole(void *state, uint8_t kind, uint32_t task, uint32_t on, uint32_t answer[3]) {
    order_step(state, kind, task, on, answer);
}
/* The tables and the whole state by turns. */
static void feed_mixed(void *state, uint8_t kind, uint32_t task, uint32_t on, uint32_t answer[3]) {
    static unsigned turn;
    (turn++ % 2 ? feed_whole : feed_clocks)(state, kind, task, on, answer);
}
static uint32_t totals_clocks(const void *state, uint32_t variable, uint32_t counts[3]) {
    return order_state_totals(state, variable, counts);
}
static uint32_t any_race_clocks(const void *state) { return order_state_any_race(state); }
static void begin_sets(void *state) { order_sets_state_begin(state); }
static void feed_sets(void *state, uint8_t kind, uint32_t task, uint32_t on, uint32_t answer[3]) {
    order_sets_state_feed(state, kind, task, on, answer);
}
static uint32_t totals_sets(const void *state, uint32_t variable, uint32_t counts[3]) {
    return order_sets_state_totals(state, variable, counts);
}
static uint32_t any_race_sets(const void *state) { return order_sets_state_any_race(state); }

/* A variable's totals are just these, and whether there was a Race anywhere is just this. Reading changes nothing. */
static int totals_are(const struct way *way, const void *state, uint32_t variable, const uint32_t expected[3], uint32_t any_race) {
    uint32_t got[5] = {77, 77, 77, 77, 77};
    int known = way->totals(state, variable, got + 1) == 1;
    return known && memcmp(got + 1, expected, 3 * sizeof got[0]) == 0 && got[0] == 77 && got[4] == 77 && way->any_race(state) == any_race;
}

/* Numbers that are no variable's: the answer is 0, and the memory is as it was. */
static void unknown(const struct way *way, const void *state) {
    static const uint32_t numbers[] = {VARIABLES, VARIABLES + 5, 256, 65536, 1u << 31, UINT32_MAX};
    for (size_t i = 0; i < sizeof numbers / sizeof numbers[0]; i++) {
        uint32_t got[3] = {77, 78, 79};
        int untouched = way->totals(state, numbers[i], got) == 0 && got[0] == 77 && got[1] == 78 && got[2] == 79;
        char name[80];
        snprintf(name, sizeof name, "%s: no totals of variable %u", way->name, (unsigned)numbers[i]);
        check(name, untouched);
    }
}

/* All totals where so many records of the example have been fed, counted from the answers that it expects. */
static void count(const struct way *way, const void *state, size_t records) {
    int right = 1;
    for (uint32_t v = 0; v < VARIABLES; v++) {
        uint32_t expected[3] = {0}, races = 0;
        for (size_t i = 0; i < records; i++) {
            uint32_t said = example[i].answer[0];
            if (said >= ORDER_CLEAR && example[i].on == v) expected[said - ORDER_CLEAR]++;
            races += said == ORDER_RACE;
        }
        right = right && totals_are(way, state, v, expected, races > 0);
    }
    char name[80];
    snprintf(name, sizeof name, "%s: totals after %zu records", way->name, records);
    check(name, right);
}

/* Feeds one record and says what differs, if anything does. */
static void feed(const struct way *way, void *state, const struct fed *r) {
    uint32_t got[3] = {77, 77, 77};
    way->feed(state, r->kind, r->task, r->on, got);
    char what[160];
    snprintf(what, sizeof what, "%s: kind %u task %u on %u: answer %u %u %u, not %u %u %u", way->name, r->kind, (unsigned)r->task,
             (unsigned)r->on, (unsigned)got[0], (unsigned)got[1], (unsigned)got[2], (unsigned)r->answer[0], (unsigned)r->answer[1],
             (unsigned)r->answer[2]);
    check(what, memcmp(got, r->answer, sizeof got) == 0);
}

static void same(const struct way *way, const char *what, const void *a, const void *b) {
    char name[160];
    snprintf(name, sizeof name, "%s: %s", way->name, what);
    check(name, memcmp(a, b, way->size) == 0);
}

static void run(const struct way *way) {
    memset(way->one, 0xa5, way->size);
    way->begin(way->one);
    memcpy(way->copy, way->one, way->size);
    memset(way->two, 0x5a, way->size);
    way->begin(way->two);
    same(way, "a fresh state is the same whatever was there", way->two, way->copy);
    count(way, way->one, 0);
    unknown(way, way->one);

    /* Two states side by side, the second some records behind. */
    for (size_t i = 0; i < RECORDS + BEHIND; i++) {
        if (i < RECORDS) feed(way, way->one, &example[i]);
        if (i >= BEHIND) feed(way, way->two, &example[i - BEHIND]);
        count(way, way->one, i < RECORDS ? i + 1 : RECORDS);
        count(way, way->two, i < BEHIND ? 0 : i + 1 - BEHIND);
    }
    same(way, "the same records leave the same state", way->one, way->two);
    check("nothing is skipped without owned semaphores", order_skipped(way->one) == 0);
    for (size_t i = 0; i < TOTALS; i++) {
        check("document 01's totals", totals_are(way, way->one, totals[i].variable, totals[i].totals, 1));
    }
    unknown(way, way->one);
    same(way, "reading changes nothing", way->one, way->two);

    for (size_t i = 0; i < REFUSED; i++) {
        feed(way, way->one, &refused[i]);
        count(way, way->one, RECORDS);
    }
    same(way, "refused records leave the state as it was", way->one, way->two);

    way->begin(way->one);
    same(way, "a used state is made fresh", way->one, way->copy);
    for (size_t i = 0; i < RECORDS; i++) feed(way, way->one, &example[i]);
    same(way, "and the other is left alone", way->one, way->two);
}

/* Takes by the task that gave the semaphore last, since the ORDER_OWNED, among so many records; what is refused counts for nothing. */
static uint32_t taken_again(const struct fed *records, size_t count) {
    uint32_t givers[32] = {0}, again = 0;
    int under = 0;
    for (size_t i = 0; i < count; i++) {
        const struct fed *r = &records[i];
        if (r->answer[0] == ORDER_REFUSED) continue;
        under = under || r->kind == ORDER_OWNED;
        if (under && r->kind == ORDER_TAKE) again += givers[r->on] == r->task + 1;
        if (under && r->kind == ORDER_GIVE) givers[r->on] = r->task + 1;
    }
    return again;
}

/* Feeds such a list to a fresh state. What is refused leaves it as it was, and the takes that are skipped are counted. */
static void garage_is(const struct way *way, const struct fed *records, size_t count, uint32_t skipped) {
    const uint32_t *control = way->one;
    way->begin(way->one);
    check("nothing is skipped in a fresh state", order_skipped(control) == 0);
    for (size_t i = 0; i < count; i++) {
        memcpy(way->copy, way->one, way->size);
        feed(way, way->one, &records[i]);
        if (records[i].answer[0] == ORDER_REFUSED) same(way, "a refused record of a garage changes nothing", way->one, way->copy);
        char name[80];
        snprintf(name, sizeof name, "%s: %u takes skipped after %zu records", way->name, (unsigned)order_skipped(control), i + 1);
        check(name, order_skipped(control) == taken_again(records, i + 1));
    }
    check("and at the end", order_skipped(control) == skipped);
}

static void garages(const struct way *way) {
    garage_is(way, garage, sizeof garage / sizeof garage[0], 1);
    check("a Race in the garage, and its two Clears after it", totals_are(way, way->one, 5, (const uint32_t[]){3, 1, 0}, 1));
    garage_is(way, changed, sizeof changed / sizeof changed[0], 1);
    garage_is(way, again, sizeof again / sizeof again[0], 4);
}

/* The count of skipped takes at the end of its range stays there. The control table has the profile after the count of records, then the holder
 * and then the last giver of each semaphore, and that count. */
static void skipped_end(const struct way *way) {
    enum { COUNT = 16, PROFILE = 17, HOLDERS = 18, GIVERS = 50, SKIPPED = 82 };
    uint32_t *control = way->one, got[3];
    way->begin(way->one);
    way->feed(way->one, ORDER_OWNED, 0, 0, got);
    control[SKIPPED] = UINT32_MAX - 1;
    uint32_t counts[3];
    for (int i = 0; i < 3; i++) {
        control[HOLDERS + i] = 0;
        control[GIVERS + i] = 1;
        way->feed(way->one, ORDER_TAKE, 0, (uint32_t)i, got);
        counts[i] = got[0] == ORDER_ACCEPTED ? order_skipped(control) : 0;
    }
    check("skipped takes at the end of their range stay there", counts[0] == UINT32_MAX && counts[1] == UINT32_MAX && counts[2] == UINT32_MAX);
    check("and are counted where the table has them", control[PROFILE] == 1 && control[COUNT] == 4 && control[SKIPPED] == UINT32_MAX);
}

/* Totals at the end of their range stay there, also where a record is taken: the control table is the first of a state, and has the phase of
 * task 0 in its first cell and the count of records after the sixteen phases. */
static void range_end(const struct way *way) {
    enum { COUNT = 16 };
    static const uint32_t end[3] = {UINT32_MAX, UINT32_MAX, UINT32_MAX};
    uint32_t *control = way->one, got[3];
    memset(way->one, 0xff, way->size);
    unknown(way, way->one);
    control[0] = 1;
    control[COUNT] = 0;
    int right = 1;
    for (uint32_t v = 0; v < VARIABLES; v++) {
        way->feed(way->one, ORDER_WRITE, 0, v, got);
        right = right && got[0] >= ORDER_CLEAR && got[1] == v + 1 && totals_are(way, way->one, v, end, 1);
    }
    char name[80];
    snprintf(name, sizeof name, "%s: totals at the end of their range stay there", way->name);
    check(name, right);
}

/* Cells that no begin or record left: the count is past the limit, so that row 5 refuses what rows 1 to 4 do not. */
static void one_bits(const struct way *way) {
    memset(way->one, 0xff, way->size);
    for (size_t i = 0; i < RECORDS; i++) {
        struct fed r = {example[i].kind, example[i].task, example[i].on, {ORDER_REFUSED, 5, 0}};
        feed(way, way->one, &r);
    }
    char name[80];
    snprintf(name, sizeof name, "%s: a state of all one-bits is left as it was", way->name);
    check(name, all(way->one, way->size, 0xff));
}

/* However the records are fed, by the tables or to the whole state, the same answers and the same bytes of the state come of them. */
static void layout(int owned) {
    static struct order_state one, two;
    order_state_begin(&one);
    order_state_begin(&two);
    int same_state = 1;
    if (owned) {
        uint32_t a[3], b[3];
        order_state_feed(&one, ORDER_OWNED, 0, 0, a);
        order_step(&two, ORDER_OWNED, 0, 0, b);
        same_state = a[0] == ORDER_ACCEPTED && b[0] == ORDER_ACCEPTED && memcmp(&one, &two, sizeof one) == 0;
    }
    for (uint32_t i = 0; i < 2000; i++) {
        uint32_t a[3], b[3], x = i * 2654435761u;
        uint8_t kind = (uint8_t)(i < 15 ? ORDER_START : (x >> 28) % (ORDER_LOST + 1));
        uint32_t task = i < 15 ? 0 : (x >> 20) % 16, on = i < 15 ? i + 1 : (x >> 12) % 32;
        order_state_feed(&one, kind, task, on, a);
        order_step(&two, kind, task, on, b);
        same_state = same_state && memcmp(a, b, sizeof a) == 0 && memcmp(&one, &two, sizeof one) == 0;
    }
    check("the whole state has its tables where the struct has them", same_state);
}

static void states(void) {
    static struct order_state clocks[3];
    static struct order_sets sets[3];
#define BY_CLOCKS totals_clocks, any_race_clocks, sizeof clocks[0], &clocks[0], &clocks[1], &clocks[2]
    const struct way ways[] = {{"clocks", begin_clocks, feed_clocks, BY_CLOCKS},
                               {"whole", begin_clocks, feed_whole, BY_CLOCKS},
                               {"mixed", begin_clocks, feed_mixed, BY_CLOCKS},
                               {"sets", begin_sets, feed_sets, totals_sets, any_race_sets, sizeof sets[0], &sets[0], &sets[1], &sets[2]}};
    for (size_t i = 0; i < sizeof ways / sizeof ways[0]; i++) {
        run(&ways[i]);
        garages(&ways[i]);
        skipped_end(&ways[i]);
        range_end(&ways[i]);
        one_bits(&ways[i]);
    }
}

/* A text in pieces, and what was written for it so far. */
struct cut {
    struct order_text kept;
    uint8_t wrote[4096];
    size_t total;
    int right;
};

static void cut_begin(struct cut *cut) {
    memset(cut, 0xa5, sizeof *cut);
    order_text_begin(&cut->kept);
    cut->total = 0;
    cut->right = 1;
}

/* Adds what a call wrote. The bytes after that must be as they were. */
static void cut_add(struct cut *cut, uint64_t n, const uint8_t *out, size_t out_len) {
    cut->right = cut->right && n <= out_len && cut->total + n <= sizeof cut->wrote && all(out + n, out_len - n, 0x5a);
    if (!cut->right) return;
    memcpy(cut->wrote + cut->total, out, n);
    cut->total += n;
}

/* A planner's entries, in five digits and in seven: the example's Race is accepted, and its Doubt, which stays one; another pair is open, and
 * what is between is no entry. Below, what is written for them and for the example. */
static const char entries[] = "rec=00006 var=5 low=0 high=1 mark=accepted\nrec=00007 var=6 low=1 high=0 mark=accepted\n\n"
                              "rec=0000007 var=6 low=0 high=1 mark=accepted\nrec=4000000 var=6 low=0 high=2 mark=open\n";
static const char known[] = "entry=2 refused=12\nentry=3 refused=12\n"
                            "rec=0000002 task=0 var=5 verdict=clear with=0000000\nrec=0000004 task=0 var=6 verdict=clear with=0000000\n"
                            "rec=0000006 task=1 var=5 verdict=doubt with=0000002\nrec=0000007 task=1 var=6 verdict=known with=0000004\n"
                            "rec=0000009 task=1 var=5 verdict=clear with=0000000\nline=10 refused=6\n";

enum { ENTRIES = sizeof entries - 1 };

static uint8_t memory[64 * (sizeof text > sizeof entries ? sizeof text : sizeof entries)];

/* Feeds a piece, with just the memory that it wants. */
static void cut_feed(struct cut *cut, const char *piece, size_t len) {
    memset(memory, 0x5a, sizeof memory);
    cut_add(cut, order_text_piece(&cut->kept, (const uint8_t *)piece, len, memory, 64 * len), memory, 64 * len);
}

/* Ends the text: what was written is just this. */
static void cut_expect(struct cut *cut, const char *how, size_t at, const char *expected) {
    memset(memory, 0x5a, sizeof memory);
    cut_add(cut, order_text_end(&cut->kept, memory, 64), memory, 64);
    char what[160];
    snprintf(what, sizeof what, "the example %s %zu: %zu bytes of report", how, at, cut->total);
    check(what, cut->right && cut->total == strlen(expected) && memcmp(cut->wrote, expected, cut->total) == 0);
}

/* The report is whole, and so is the count of its bytes. */
static void cut_end(struct cut *cut, const char *how, size_t at) { cut_expect(cut, how, at, report); }

/* Takes in entries, with just the memory that they want. */
static void cut_enter(struct cut *cut, const char *piece, size_t len) {
    memset(memory, 0x5a, sizeof memory);
    cut_add(cut, order_text_entries(&cut->kept, (const uint8_t *)piece, len, memory, 64 * len), memory, 64 * len);
}

/* Ends the entries, so that the text may begin. */
static void cut_entered(struct cut *cut) {
    memset(memory, 0x5a, sizeof memory);
    cut_add(cut, order_text_entries_end(&cut->kept, memory, 64), memory, 64);
    cut->right = cut->right && cut->kept.progress[0] == 0 && cut->kept.progress[1] == 0;
}

static struct cut cut;

/* In pieces of each size, in two, with an empty piece between, each with its last LF and without. */
static void pieces(size_t len) {
    for (size_t size = 1; size <= len; size++) {
        cut_begin(&cut);
        for (size_t at = 0; at < len; at += size) cut_feed(&cut, text + at, len - at < size ? len - at : size);
        cut_end(&cut, "in pieces of", size);
    }
    for (size_t at = 0; at <= len; at++) {
        cut_begin(&cut);
        cut_feed(&cut, text, at);
        cut_feed(&cut, "", 0);
        cut_feed(&cut, text + at, len - at);
        cut_end(&cut, "cut at", at);
    }
}

static uint32_t totals_text(const void *kept, uint32_t variable, uint32_t counts[3]) { return order_text_totals(kept, variable, counts); }
static uint32_t any_race_text(const void *kept) { return order_text_any_race(kept); }

/* The totals between two pieces are those of the lines that have ended, wherever the text is cut. */
static void text_totals(void) {
    const struct way way = {.name = "text", .totals = totals_text, .any_race = any_race_text};
    cut_begin(&cut);
    size_t ended = 0;
    for (size_t at = 0; at < TEXT; at++) {
        cut_feed(&cut, text + at, 1);
        ended += text[at] == '\n';
        count(&way, &cut.kept, ended);
    }
    unknown(&way, &cut.kept);
    cut_end(&cut, "with its totals, in pieces of", 1);
}

/* The takes skipped of a text, between two pieces. */
static void text_skipped(void) {
    static const char lines[] = "op=owned task=0 on=0\nop=take task=0 on=3\nop=give task=0 on=3\nop=take task=0 on=3\nop=take task=0 on=3\n"
                                "op=give task=0 on=3\nop=take task=0 on=3\n";
    static const uint32_t skipped[] = {0, 0, 0, 0, 1, 1, 1, 2};
    int right = 1;
    size_t ended = 0;
    cut_begin(&cut);
    for (size_t at = 0; at < sizeof lines - 1; at++) {
        cut_feed(&cut, lines + at, 1);
        ended += lines[at] == '\n';
        right = right && order_skipped(cut.kept.state.control) == skipped[ended];
    }
    check("takes skipped of a text, between its pieces", right && ended == 7);
    order_text_begin(&cut.kept);
    check("and none of a text that is begun", order_skipped(cut.kept.state.control) == 0);
}

/* The running state of a text is that of its records, and may be fed records too. */
static void text_and_records(void) {
    static struct order_state state;
    order_state_begin(&state);
    cut_begin(&cut);
    size_t from = 0;
    for (size_t i = 0; i < RECORDS; i++) {
        size_t to = (size_t)(strchr(text + from, '\n') - text) + 1;
        uint32_t one[3], two[3] = {0};
        order_state_feed(&state, example[i].kind, example[i].task, example[i].on, one);
        if (i % 2) {
            cut_feed(&cut, text + from, to - from);
        } else {
            order_state_feed(&cut.kept.state, example[i].kind, example[i].task, example[i].on, two);
            check("a record between two pieces", memcmp(one, two, sizeof one) == 0);
        }
        check("a text leaves the state that its records leave", memcmp(&state, &cut.kept.state, sizeof state) == 0);
        from = to;
    }
    check("and its lines are those of the text alone", cut.kept.progress[0] == RECORDS / 2 && cut.kept.progress[1] == 0);
}

/* A piece that is refused changes nothing. */
static void refuse(const char *what, const struct order_text *kept, const char *piece, size_t len, size_t room) {
    static struct order_text before, after;
    memcpy(&before, kept, sizeof before);
    memcpy(&after, kept, sizeof after);
    memset(memory, 0x5a, sizeof memory);
    uint64_t n = order_text_piece(&after, (const uint8_t *)piece, len, memory, room);
    check(what, n == ORDER_TOO_SMALL && memcmp(&before, &after, sizeof before) == 0 && all(memory, sizeof memory, 0x5a));
}

static void too_little(void) {
    cut_begin(&cut);
    for (size_t at = 0; at < TEXT; at += 50) {
        size_t len = TEXT - at < 50 ? TEXT - at : 50;
        refuse("one byte too few", &cut.kept, text + at, len, 64 * len - 1);
        refuse("no memory", &cut.kept, text + at, len, 0);
        cut_feed(&cut, text + at, len);
    }
    cut_end(&cut, "after refusals of pieces of", 50);
}

/* What no begin or piece left: the call is safe still, and refuses what it cannot count or hold. */
static void any_text(void) {
    static struct order_text kept;
    uint8_t out[64];
    memset(&kept, 0xff, sizeof kept);
    refuse("a text of all one-bits", &kept, text, 1, sizeof memory);
    kept.progress[0] = 0;
    kept.progress[1] = ORDER_HELD_BYTES + 1;
    refuse("more held than can be", &kept, "\n", 1, sizeof memory);
    kept.progress[1] = ORDER_HELD_BYTES;
    check("held bytes of any kind", order_text_end(&kept, out, 64) == 17 && memcmp(out, "line=1 refused=1\n", 17) == 0);
    const char *record = "op=read task=0 on=1\n";
    uint64_t n = order_text_piece(&kept, (const uint8_t *)record, 20, memory, sizeof memory);
    check("tables of all one-bits: full", n == 17 && memcmp(memory, "line=2 refused=5\n", 17) == 0 && all(&kept.state, sizeof kept.state, 0xff));
    kept.progress[0] = UINT64_MAX - 1;
    check("the last line that can be counted", order_text_piece(&kept, (const uint8_t *)"\n", 1, out, 64) == 36);
    check("has its number", memcmp(out, "line=18446744073709551615 refused=1\n", 36) == 0);
    refuse("and there is none after it", &kept, "\n", 1, sizeof memory);
}

/* Entries in pieces of each size, in two, with an empty piece between, each with their last LF and without; then the example. */
static void entered(size_t len) {
    for (size_t size = 1; size <= len; size++) {
        cut_begin(&cut);
        for (size_t at = 0; at < len; at += size) cut_enter(&cut, entries + at, len - at < size ? len - at : size);
        cut_entered(&cut);
        cut_feed(&cut, text, TEXT);
        cut_expect(&cut, "after entries in pieces of", size, known);
    }
    for (size_t at = 0; at <= len; at++) {
        cut_begin(&cut);
        cut_enter(&cut, entries, at);
        cut_enter(&cut, "", 0);
        cut_enter(&cut, entries + at, len - at);
        cut_entered(&cut);
        cut_feed(&cut, text, at);
        cut_feed(&cut, text + at, TEXT - at);
        cut_expect(&cut, "after entries, cut at", at, known);
    }
}

/* Entries count nowhere, and a known Race counts as a Race. A begun text has none. */
static void entered_totals(void) {
    static struct order_text fresh;
    const struct way way = {.name = "entries", .totals = totals_text, .any_race = any_race_text};
    memset(&fresh, 0, sizeof fresh);
    order_text_begin(&fresh);
    cut_begin(&cut);
    cut_enter(&cut, entries, ENTRIES);
    count(&way, &cut.kept, 0);
    cut_entered(&cut);
    cut_feed(&cut, text, TEXT);
    count(&way, &cut.kept, RECORDS);
    cut_expect(&cut, "after entries, with its totals, cut at", 0, known);
    order_text_begin(&cut.kept);
    check("a text with entries is begun again without", memcmp(&cut.kept.state, &fresh.state, sizeof fresh.state) == 0);
}

/* So many times a line of entries, then another; and the first line of what is written then. */
static void enter_many(const char *what, size_t times, const char *line, const char *last, const char *first, const char *verdict) {
    cut_begin(&cut);
    for (size_t i = 0; i < times; i++) cut_enter(&cut, line, strlen(line));
    cut_enter(&cut, last, strlen(last));
    cut_entered(&cut);
    cut_feed(&cut, text, TEXT);
    cut.wrote[cut.total < sizeof cut.wrote ? cut.total : 0] = 0;
    check(what, cut.right && strncmp((char *)cut.wrote, first, strlen(first)) == 0 && strstr((char *)cut.wrote, verdict));
}

/* The later line holds; 200 are taken in, whatever they say, and 12 goes before 13. */
static void later_and_full(void) {
    static const char accepted[] = "rec=00007 var=6 low=0 high=1 mark=accepted\n", open[] = "rec=00001 var=6 low=0 high=1 mark=open\n";
    static const char other[] = "rec=00001 var=63 low=14 high=15 mark=open\n", swapped[] = "rec=00001 var=6 low=1 high=0 mark=open\n";
    enter_many("accepted", 0, "", accepted, "rec=0000002", " var=6 verdict=known with=0000004\n");
    enter_many("accepted, then open", 1, accepted, open, "rec=0000002", " var=6 verdict=race with=0000004\n");
    enter_many("open, then accepted", 1, open, accepted, "rec=0000002", " var=6 verdict=known with=0000004\n");
    enter_many("the 200th entry", 199, other, accepted, "rec=0000002", " var=6 verdict=known with=0000004\n");
    enter_many("the 201st entry", 200, other, accepted, "entry=201 refused=13\nrec=0000002", " var=6 verdict=race with=0000004\n");
    enter_many("the 201st for the same pair", 200, accepted, open, "entry=201 refused=13\nrec=0000002", " var=6 verdict=known with=0000004\n");
    enter_many("12 goes first", 200, accepted, swapped, "entry=201 refused=12\nrec=0000002", " var=6 verdict=known with=0000004\n");
}

/* Tasks 1 and 2 write variable 5 and task 0 reads it; the line for the read, by what is accepted. */
static void partners(void) {
#define ACCEPTED(var, pair) "rec=00005 var=" var " " pair " mark=accepted\n"
    static const char three[] = "op=start task=0 on=1\nop=start task=0 on=2\nop=write task=1 on=5\nop=write task=2 on=5\n"
                                "op=read task=0 on=5\n";
    static const char *const cases[][2] = {
        {"", "race with=0000003\n"},
        {ACCEPTED("5", "low=0 high=1"), "race with=0000004\n"},
        {ACCEPTED("5", "low=0 high=2"), "race with=0000003\n"},
        {ACCEPTED("5", "low=1 high=2"), "race with=0000003\n"},
        {ACCEPTED("5", "low=0 high=1") ACCEPTED("5", "low=0 high=2"), "known with=0000003\n"},
        {ACCEPTED("5", "low=0 high=1") ACCEPTED("4", "low=0 high=2"), "race with=0000004\n"},
    };
    for (size_t i = 0; i < sizeof cases / sizeof cases[0]; i++) {
        size_t len = strlen(cases[i][1]);
        cut_begin(&cut);
        cut_enter(&cut, cases[i][0], strlen(cases[i][0]));
        cut_entered(&cut);
        cut_feed(&cut, three, sizeof three - 1);
        check(cases[i][0], cut.right && cut.total > len && memcmp(cut.wrote + cut.total - len, cases[i][1], len) == 0);
    }
}

/* A piece of entries that is refused changes nothing. */
static void refuse_entries(const char *what, const struct order_text *kept, const char *piece, size_t len, size_t room) {
    static struct order_text before, after;
    memcpy(&before, kept, sizeof before);
    memcpy(&after, kept, sizeof after);
    memset(memory, 0x5a, sizeof memory);
    uint64_t n = len ? order_text_entries(&after, (const uint8_t *)piece, len, memory, room) : order_text_entries_end(&after, memory, room);
    check(what, n == ORDER_TOO_SMALL && memcmp(&before, &after, sizeof before) == 0 && all(memory, sizeof memory, 0x5a));
}

static void entries_refused(void) {
    static struct order_text kept;
    uint8_t out[64];
    cut_begin(&cut);
    for (size_t at = 0; at < ENTRIES - 1; at += 30) {
        size_t len = ENTRIES - 1 - at < 30 ? ENTRIES - 1 - at : 30;
        refuse_entries("entries, one byte too few", &cut.kept, entries + at, len, 64 * len - 1);
        refuse_entries("entries, no memory", &cut.kept, entries + at, len, 0);
        cut_enter(&cut, entries + at, len);
    }
    refuse_entries("the end of entries, one byte too few", &cut.kept, "", 0, 63);
    cut_entered(&cut);
    check("a second end has nothing to say", order_text_entries_end(&cut.kept, out, 0) == 0);
    cut_feed(&cut, text, TEXT);
    cut_expect(&cut, "after refusals of entries in pieces of", 30, known);

    /* What no begin or piece left: the call is safe still. */
    memset(&kept, 0xff, sizeof kept);
    refuse_entries("entries of all one-bits", &kept, entries, 1, sizeof memory);
    kept.progress[0] = 0;
    kept.progress[1] = ORDER_HELD_BYTES + 1;
    refuse_entries("more held of an entry than can be", &kept, "\n", 1, sizeof memory);
    kept.progress[1] = ORDER_HELD_BYTES;
    uint64_t n = order_text_entries(&kept, (const uint8_t *)"\n", 1, out, 64);
    check("held bytes of any kind are no entry", n == 19 && memcmp(out, "entry=1 refused=12\n", 19) == 0);
    n = order_text_entries(&kept, (const uint8_t *)entries, 43, memory, sizeof memory);
    check("a control table of all one-bits: full", n == 19 && memcmp(memory, "entry=2 refused=13\n", 19) == 0);
    check("and is left as it was", all(&kept.state, sizeof kept.state, 0xff));
    kept.progress[0] = UINT64_MAX - 1;
    check("the last entry that can be counted", order_text_entries(&kept, (const uint8_t *)"\n", 1, out, 64) == 38);
    check("has its number", memcmp(out, "entry=18446744073709551615 refused=12\n", 38) == 0);
    refuse_entries("and there is none after it", &kept, "\n", 1, sizeof memory);
}

/* A list and what is answered for the access that ends it: the refusal, the tasks that have a pair, those from which a path leads here, the
 * records walked. */
struct list {
    const char *name;
    size_t len;
    uint32_t records[10][3];
    uint64_t answer[4];
};

enum { MOST = sizeof((struct list *)0)->records / sizeof((struct list *)0)->records[0] };

static const struct list lists[] = {
    {"no records", 0, {{0}}, {0, 0, 0, 0}},
    {"one access", 1, {{ORDER_WRITE, 0, 5}}, {0, 0, 0, 0}},
    {"nothing between", 3, {{ORDER_START, 0, 1}, {ORDER_WRITE, 0, 5}, {ORDER_READ, 1, 5}}, {0, 1, 0, 0}},
    {"handed over",
     5,
     {{ORDER_START, 0, 1}, {ORDER_WRITE, 0, 5}, {ORDER_GIVE, 0, 2}, {ORDER_TAKE, 1, 2}, {ORDER_READ, 1, 5}},
     {0, 1, 1, 2}},
    {"nothing is walked after the first that brings order",
     7,
     {{ORDER_WRITE, 0, 5}, {ORDER_START, 0, 1}, {ORDER_GIVE, 0, 2}, {ORDER_TAKE, 1, 2}, {ORDER_LOOK, 1, 2}, {ORDER_MISS, 1, 2},
      {ORDER_BUMP, 1, 5}},
     {0, 1, 1, 1}},
    {"an own write in order",
     7,
     {{ORDER_START, 0, 1}, {ORDER_WRITE, 0, 5}, {ORDER_SET, 0, 2}, {ORDER_LOOK, 1, 2}, {ORDER_WRITE, 1, 5}, {ORDER_GIVE, 1, 2},
      {ORDER_READ, 1, 5}},
     {0, 1, 1, 0}},
    {"an own bump is no write",
     5,
     {{ORDER_START, 0, 1}, {ORDER_BUMP, 0, 5}, {ORDER_BUMP, 1, 5}, {ORDER_TAKE, 1, 3}, {ORDER_READ, 1, 5}},
     {0, 1, 0, 1}},
    {"a joined task that acted",
     6,
     {{ORDER_START, 0, 2}, {ORDER_WRITE, 0, 5}, {ORDER_START, 0, 1}, {ORDER_READ, 1, 6}, {ORDER_JOIN, 2, 1}, {ORDER_READ, 2, 5}},
     {0, 1, 1, 2}},
    {"one that never acted, whatever was lost",
     6,
     {{ORDER_START, 0, 2}, {ORDER_WRITE, 0, 5}, {ORDER_START, 0, 1}, {ORDER_LOST, 77, 2}, {ORDER_JOIN, 2, 1}, {ORDER_READ, 2, 5}},
     {0, 1, 0, 2}},
    {"two pairs",
     9,
     {{ORDER_START, 0, 1}, {ORDER_START, 0, 15}, {ORDER_WRITE, 15, 5}, {ORDER_WRITE, 0, 5}, {ORDER_READ, 0, 6}, {ORDER_GIVE, 0, 2},
      {ORDER_TAKE, 1, 2}, {ORDER_SET, 15, 0}, {ORDER_WRITE, 1, 5}},
     {0, 32769, 1, 5}},
    {"a fresh cuts off",
     5,
     {{ORDER_START, 0, 1}, {ORDER_WRITE, 0, 5}, {ORDER_GIVE, 0, 2}, {ORDER_FRESH, 1, 5}, {ORDER_WRITE, 1, 5}},
     {0, 0, 0, 0}},
    {"no access ends it", 4, {{ORDER_START, 0, 1}, {ORDER_WRITE, 0, 5}, {ORDER_GIVE, 0, 2}, {ORDER_TAKE, 1, 2}}, {0, 0, 0, 0}},
    {"owned semaphores",
     7,
     {{ORDER_OWNED, 0, 0}, {ORDER_START, 0, 1}, {ORDER_TAKE, 0, 2}, {ORDER_WRITE, 0, 5}, {ORDER_GIVE, 0, 2}, {ORDER_TAKE, 1, 2}, {ORDER_READ, 1, 5}},
     {0, 1, 1, 2}},
    {"an owned ends it", 1, {{ORDER_OWNED, 0, 0}}, {0, 0, 0, 0}},
    {"a second owned", 3, {{ORDER_READ, 0, 5}, {ORDER_OWNED, 0, 0}, {ORDER_OWNED, 0, 0}}, {14, 0, 0, 0}},
    {"a give before an owned",
     6,
     {{ORDER_START, 0, 1}, {ORDER_WRITE, 0, 5}, {ORDER_GIVE, 0, 2}, {ORDER_OWNED, 1, 0}, {ORDER_TAKE, 1, 2}, {ORDER_READ, 1, 5}},
     {0, 1, 1, 2}},
    {"a joined task that acted by an owned",
     6,
     {{ORDER_START, 0, 2}, {ORDER_WRITE, 0, 5}, {ORDER_START, 0, 1}, {ORDER_OWNED, 1, 0}, {ORDER_JOIN, 2, 1}, {ORDER_READ, 2, 5}},
     {0, 1, 1, 2}},
    {"a mark among owned semaphores", 3, {{ORDER_OWNED, 0, 0}, {ORDER_LOST, 0, 1}, {ORDER_READ, 0, 5}}, {15, 0, 0, 0}},
    {"a give by a task that holds nothing", 3, {{ORDER_OWNED, 0, 0}, {ORDER_GIVE, 0, 1}, {ORDER_READ, 0, 5}}, {16, 0, 0, 0}},
    {"a take of a held semaphore", 4, {{ORDER_OWNED, 0, 0}, {ORDER_TAKE, 0, 1}, {ORDER_TAKE, 0, 1}, {ORDER_READ, 0, 5}}, {16, 0, 0, 0}},
    {"a kind past a byte", 3, {{ORDER_START, 0, 1}, {ORDER_WRITE + 256, 0, 5}, {ORDER_READ, 1, 5}}, {1, 0, 0, 0}},
    {"the first refused counts", 4, {{ORDER_READ, 0, 5}, {ORDER_READ, 16, 64}, {ORDER_LOST, 0, 0}, {ORDER_READ, 0, 5}}, {2, 0, 0, 0}},
    {"refused at the end", 3, {{ORDER_START, 0, 1}, {ORDER_WRITE, 0, 5}, {ORDER_READ, 2, UINT32_MAX}}, {3, 0, 0, 0}},
};

/* The answer is just this, the memory beside it stays, and so does the list. */
static void ends_with(const char *name, const uint32_t (*records)[3], size_t len, const uint64_t expected[4]) {
    static uint32_t lent[MOST][3];
    uint64_t got[6] = {77, 77, 77, 77, 77, 77};
    memset(lent, 0xa5, sizeof lent);
    memcpy(lent, records, len * sizeof lent[0]);
    order_lazy(lent, len, got + 1);
    char what[160];
    snprintf(what, sizeof what, "list, %s: %llu %llu %llu %llu", name, (unsigned long long)got[1], (unsigned long long)got[2],
             (unsigned long long)got[3], (unsigned long long)got[4]);
    check(what, memcmp(got + 1, expected, 4 * sizeof got[0]) == 0 && got[0] == 77 && got[5] == 77);
    check("a list stays", memcmp(lent, records, len * sizeof lent[0]) == 0 && all(lent + len, sizeof lent - len * sizeof lent[0], 0xa5));
}

static void lazily(void) {
    for (size_t i = 0; i < sizeof lists / sizeof lists[0]; i++) ends_with(lists[i].name, lists[i].records, lists[i].len, lists[i].answer);

    /* Document 01's example at each length: only its three accesses by task 1 have a pair. */
    static const uint64_t expected[RECORDS + 1][4] = {[6] = {0, 1, 0, 1}, [7] = {0, 1, 0, 0}, [9] = {0, 1, 1, 2}, [10] = {6, 0, 0, 0}};
    uint32_t records[RECORDS][3];
    for (size_t i = 0; i < RECORDS; i++) {
        records[i][0] = example[i].kind;
        records[i][1] = example[i].task;
        records[i][2] = example[i].on;
    }
    for (size_t len = 0; len <= RECORDS; len++) {
        char name[80];
        snprintf(name, sizeof name, "document 01's example, its first %zu records", len);
        ends_with(name, records, len, expected[len]);
    }
}

/* A list, a home set, and what is answered for the access that ends the list: the refusal, and whether home can force Clear. */
struct question {
    const char *name;
    size_t len;
    uint32_t records[8][3];
    uint16_t home;
    uint32_t answer[2];
};

static const struct question questions[] = {
    {"no records", 0, {{0}}, 0, {0, ORDER_NEITHER}},
    {"no records, the full set", 0, {{0}}, UINT16_MAX, {0, ORDER_NEITHER}},
    {"a Clear, the empty set", 1, {{ORDER_WRITE, 0, 5}}, 0, {0, ORDER_YES}},
    {"a Race, the full set", 3, {{ORDER_START, 0, 1}, {ORDER_WRITE, 0, 5}, {ORDER_READ, 1, 5}}, UINT16_MAX, {0, ORDER_NO}},
    {"the reader's lost take",
     5,
     {{ORDER_START, 0, 1}, {ORDER_WRITE, 0, 5}, {ORDER_GIVE, 0, 2}, {ORDER_LOST, 0, 2}, {ORDER_READ, 1, 5}},
     1 << 1,
     {0, ORDER_YES}},
    {"and the writer",
     5,
     {{ORDER_START, 0, 1}, {ORDER_WRITE, 0, 5}, {ORDER_GIVE, 0, 2}, {ORDER_LOST, UINT32_MAX, 2}, {ORDER_READ, 1, 5}},
     UINT16_MAX - (1 << 1),
     {0, ORDER_NO}},
    {"a hand-over that both lost, one side",
     4,
     {{ORDER_START, 0, 15}, {ORDER_WRITE, 0, 5}, {ORDER_LOST, 0, 32769}, {ORDER_BUMP, 15, 5}},
     1 << 15,
     {0, ORDER_NO}},
    {"and both", 4, {{ORDER_START, 0, 15}, {ORDER_WRITE, 0, 5}, {ORDER_LOST, 0, 32769}, {ORDER_BUMP, 15, 5}}, 32769, {0, ORDER_YES}},
    {"a joined task that may have acted",
     6,
     {{ORDER_START, 0, 2}, {ORDER_WRITE, 0, 5}, {ORDER_START, 0, 1}, {ORDER_LOST, 77, 2}, {ORDER_JOIN, 2, 1}, {ORDER_READ, 2, 5}},
     2,
     {0, ORDER_YES}},
    {"and the other two",
     6,
     {{ORDER_START, 0, 2}, {ORDER_WRITE, 0, 5}, {ORDER_START, 0, 1}, {ORDER_LOST, 77, 2}, {ORDER_JOIN, 2, 1}, {ORDER_READ, 2, 5}},
     5,
     {0, ORDER_NO}},
    {"no access ends it",
     4,
     {{ORDER_START, 0, 1}, {ORDER_WRITE, 0, 5}, {ORDER_LOST, 0, 3}, {ORDER_TAKE, 1, 2}},
     UINT16_MAX,
     {0, ORDER_NEITHER}},
    {"a mark ends it", 3, {{ORDER_START, 0, 1}, {ORDER_WRITE, 0, 5}, {ORDER_LOST, 0, 3}}, 3, {0, ORDER_NEITHER}},
    {"a kind past a byte", 3, {{ORDER_START, 0, 1}, {ORDER_WRITE + 256, 0, 5}, {ORDER_READ, 1, 5}}, 3, {1, ORDER_NEITHER}},
    {"a kind past a byte at the end", 2, {{ORDER_START, 0, 1}, {UINT32_MAX, 0, 5}}, 3, {1, ORDER_NEITHER}},
    {"owned semaphores, a Clear",
     7,
     {{ORDER_OWNED, 0, 0}, {ORDER_START, 0, 1}, {ORDER_TAKE, 0, 2}, {ORDER_WRITE, 0, 5}, {ORDER_GIVE, 0, 2}, {ORDER_TAKE, 1, 2}, {ORDER_READ, 1, 5}},
     0,
     {0, ORDER_YES}},
    {"owned semaphores, a Race", 4, {{ORDER_OWNED, 0, 0}, {ORDER_START, 0, 1}, {ORDER_WRITE, 0, 5}, {ORDER_READ, 1, 5}}, 3, {0, ORDER_NO}},
    {"an owned ends it", 1, {{ORDER_OWNED, 0, 0}}, 1, {0, ORDER_NEITHER}},
    {"a second owned", 3, {{ORDER_READ, 0, 5}, {ORDER_OWNED, 0, 0}, {ORDER_OWNED, 0, 0}}, 1, {14, ORDER_NEITHER}},
    {"a mark before an owned",
     6,
     {{ORDER_START, 0, 1}, {ORDER_WRITE, 0, 5}, {ORDER_LOST, 0, 1}, {ORDER_OWNED, 0, 0}, {ORDER_TAKE, 1, 2}, {ORDER_READ, 1, 5}},
     1,
     {0, ORDER_YES}},
    {"and the reader alone",
     6,
     {{ORDER_START, 0, 1}, {ORDER_WRITE, 0, 5}, {ORDER_LOST, 0, 1}, {ORDER_OWNED, 0, 0}, {ORDER_TAKE, 1, 2}, {ORDER_READ, 1, 5}},
     2,
     {0, ORDER_NO}},
    {"a mark among owned semaphores", 3, {{ORDER_OWNED, 0, 0}, {ORDER_LOST, 0, 1}, {ORDER_READ, 0, 5}}, 1, {15, ORDER_NEITHER}},
    {"a give by a task that holds nothing", 3, {{ORDER_OWNED, 0, 0}, {ORDER_GIVE, 0, 1}, {ORDER_READ, 0, 5}}, 1, {16, ORDER_NEITHER}},
    {"a task past the last", 2, {{ORDER_START, 0, 1}, {ORDER_READ, 16, 5}}, UINT16_MAX, {2, ORDER_NEITHER}},
    {"a task of many bits at the end", 1, {{ORDER_READ, UINT32_MAX, 5}}, 1, {2, ORDER_NEITHER}},
    {"a variable past the last", 1, {{ORDER_BUMP, 0, 64}}, 1, {3, ORDER_NEITHER}},
    {"a mark past 16 bits", 2, {{ORDER_LOST, 0, 65537}, {ORDER_READ, 0, 5}}, 1, {4, ORDER_NEITHER}},
    {"the first refused counts",
     4,
     {{ORDER_READ, 0, 5}, {ORDER_JOIN, 0, 0}, {ORDER_LOST, 0, 0}, {ORDER_READ, 0, 5}},
     1,
     {8, ORDER_NEITHER}},
};

/* The answer is just this, the memory beside it stays, and so does the list. */
static void settled(void) {
    enum { LENT = sizeof questions[0].records };
    for (size_t i = 0; i < sizeof questions / sizeof questions[0]; i++) {
        const struct question *q = &questions[i];
        uint32_t lent[LENT / sizeof q->records[0]][3], got[4] = {77, 77, 77, 77};
        memcpy(lent, q->records, LENT);
        order_settle((const uint32_t(*)[3])lent, q->len, q->home, got + 1);
        char what[160];
        snprintf(what, sizeof what, "settle, %s: %u %u", q->name, (unsigned)got[1], (unsigned)got[2]);
        check(what, memcmp(got + 1, q->answer, sizeof q->answer) == 0 && got[0] == 77 && got[3] == 77);
        check("a list stays", memcmp(lent, q->records, LENT) == 0);
    }
}

/* All kinds of records, each verdict, and lines that are refused; the same in a garage with owned semaphores. */
static const char every[] = "op=start task=0 on=1\nop=start task=0 on=2\nop=write task=0 on=5\nop=read task=1 on=5\nop=give task=0 on=2\n"
                            "op=take task=1 on=2\nop=bump task=1 on=5\nop=set task=1 on=3\nop=look task=2 on=3\nop=miss task=2 on=4\n"
                            "op=fresh task=2 on=6\nop=write task=1 on=6\nop=lost tasks=7\nop=write task=0 on=6\nop=join task=0 on=2\n"
                            "op=read task=2 on=5\nop=read task=0 on=99999\nop=lost tasks=65535\n\nop=read task=0 on=5 \n";

static const char owned[] = "op=owned task=0 on=0\nop=start task=0 on=1\nop=take task=0 on=2\nop=write task=0 on=5\nop=take task=1 on=2\n"
                            "op=give task=1 on=2\nop=miss task=1 on=2\nop=read task=1 on=5\nop=give task=0 on=2\nop=take task=1 on=2\n"
                            "op=bump task=1 on=5\nop=lost tasks=3\nop=owned task=1 on=0\nop=join task=0 on=1\nop=take task=0 on=2\n";

enum { EVERY = sizeof every - 1, OWNED = sizeof owned - 1 };

static void stacked_report(void) {
    static uint8_t out[64 * EVERY];
    check("a report on a stack of its own", report_of(every, EVERY, out, sizeof out) <= sizeof out);
    check("and one of a garage", report_of(owned, OWNED, out, sizeof out) <= sizeof out);
}

static void stacked_piece(void) {
    static uint8_t out[64 * EVERY];
    check("a piece on a stack of its own", order_text_piece(&cut.kept, (const uint8_t *)every, EVERY, out, sizeof out) <= sizeof out);
    order_text_begin(&cut.kept);
    check("and one of a garage", order_text_piece(&cut.kept, (const uint8_t *)owned, OWNED, out, sizeof out) <= sizeof out);
}

static const uint32_t stacked_garage[][3] = {{ORDER_OWNED, 0, 0}, {ORDER_START, 0, 1}, {ORDER_TAKE, 0, 2}, {ORDER_WRITE, 0, 5}, {ORDER_GIVE, 0, 2},
                                             {ORDER_TAKE, 1, 2},  {ORDER_MISS, 0, 2},  {ORDER_BUMP, 1, 5}, {ORDER_READ, 0, 5}};

static void stacked_lazy(void) {
    static const uint32_t list[][3] = {{ORDER_START, 0, 1}, {ORDER_WRITE, 0, 5}, {ORDER_BUMP, 1, 5},  {ORDER_LOST, 0, 3},
                                       {ORDER_SET, 0, 2},   {ORDER_LOOK, 1, 2},  {ORDER_WRITE, 1, 5}, {ORDER_READ, 0, 5}};
    uint64_t answer[4];
    order_lazy(list, sizeof list / sizeof list[0], answer);
    check("a list on a stack of its own", answer[0] == 0);
    order_lazy(stacked_garage, sizeof stacked_garage / sizeof stacked_garage[0], answer);
    check("and one of a garage", answer[0] == 0);
}

static void stacked_settle(void) {
    static const uint32_t list[][3] = {{ORDER_START, 0, 1}, {ORDER_WRITE, 0, 5}, {ORDER_GIVE, 0, 2}, {ORDER_FRESH, 1, 6}, {ORDER_SET, 0, 2},
                                       {ORDER_LOST, 0, 3},  {ORDER_LOOK, 1, 2},  {ORDER_MISS, 1, 2}, {ORDER_TAKE, 1, 3},  {ORDER_BUMP, 1, 5},
                                       {ORDER_START, 0, 2}, {ORDER_LOST, 0, 6},  {ORDER_JOIN, 0, 2}, {ORDER_READ, 0, 5}};
    uint32_t answer[2];
    order_settle(list, sizeof list / sizeof list[0], 3, answer);
    check("a list and a home set on a stack of its own", answer[0] == 0 && answer[1] != ORDER_NEITHER);
    order_settle(stacked_garage, sizeof stacked_garage / sizeof stacked_garage[0], 3, answer);
    check("and one of a garage", answer[0] == 0 && answer[1] != ORDER_NEITHER);
}

/* A call needs less stack than the header promises: it is made on a stack of its own, and the lowest byte that it changed is looked for. */
static void on_stack(const char *what, void (*call)(void), size_t promised) {
    static uint8_t stack[256 * 1024];
    static ucontext_t here, there;
    memset(stack, 0xa5, sizeof stack);
    getcontext(&there);
    there.uc_stack.ss_sp = stack;
    there.uc_stack.ss_size = sizeof stack;
    there.uc_link = &here;
    makecontext(&there, call, 0);
    swapcontext(&here, &there);
    size_t left = 0;
    while (left < sizeof stack && stack[left] == 0xa5) left++;
    char name[80];
    snprintf(name, sizeof name, "%s: %zu bytes of stack", what, sizeof stack - left);
    check(name, sizeof stack - left < promised);
}

static void stacks(void) {
    on_stack("order_report", stacked_report, 40 * 1024);
    cut_begin(&cut);
    on_stack("order_piece", stacked_piece, 1024);
    on_stack("order_lazy", stacked_lazy, 16 * 1024);
    on_stack("order_settle", stacked_settle, 32 * 1024);
}

int main(void) {
    whole_texts();
    row_11();
    states();
    layout(0);
    layout(1);
    pieces(TEXT);
    pieces(TEXT - 1);
    text_totals();
    text_skipped();
    text_and_records();
    too_little();
    any_text();
    entered(ENTRIES);
    entered(ENTRIES - 1);
    entered_totals();
    later_and_full();
    partners();
    entries_refused();
    lazily();
    settled();
    stacks();
    printf("host: %d passed, %d failed\n", passed, failed);
    return failed != 0;
}
