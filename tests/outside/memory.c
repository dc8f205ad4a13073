/* The C entry, texts in pieces, entries before them, the running state, the sets and lists for the lazy reckoning in memory allotted to the
 * byte, to be run under valgrind: they must touch nothing beyond it and use nothing unset. */
#include <stdio.h>
#include <stdlib.h>
#include <string.h>

#include "../../include/order.h"

static int passed, failed;

/* One call with copies of their own for text and report. What is written is read, so that unset bytes would show. */
static void call(const char *text, size_t text_len, size_t report_len, int fits) {
    uint8_t *lent = malloc(text_len ? text_len : 1);
    uint8_t *report = malloc(report_len ? report_len : 1);
    if (!lent || !report) abort();
    memcpy(lent, text, text_len);
    memset(report, 0xa5, report_len);
    uint64_t n = order_report(lent, text_len, report, report_len);
    int right = fits ? n <= report_len : n == ORDER_TOO_SMALL;
    size_t written = fits && right ? (size_t)n : 0;
    for (size_t i = 0; i < written; i++) right = right && (report[i] == '\n' || (report[i] >= ' ' && report[i] <= 'z'));
    for (size_t i = written; i < report_len; i++) right = right && report[i] == 0xa5;
    right = right && memcmp(lent, text, text_len) == 0;
    if (right) {
        passed++;
    } else {
        failed++;
        printf("FAILED: %zu bytes of text, %zu of report, answer %llu\n", text_len, report_len, (unsigned long long)n);
    }
    free(lent);
    free(report);
}

static size_t lines(const char *text, size_t text_len) {
    size_t n = 0;
    for (size_t i = 0; i < text_len; i++) n += text[i] == '\n' || i + 1 == text_len;
    return n;
}

/* At the edge of row 11 from both sides. */
static void around(const char *text, size_t text_len) {
    size_t need = 64 * lines(text, text_len);
    call(text, text_len, need, 1);
    if (need) call(text, text_len, need - 1, 0);
}

static uint32_t *cells(size_t count) {
    uint32_t *memory = malloc(count * sizeof *memory);
    if (!memory) abort();
    return memory;
}

/* All cells are read, so that an unset one would show: it leaves no bit of the sum known. */
static uint32_t sum(const uint32_t *memory, size_t count) {
    uint32_t all = 0;
    for (size_t i = 0; i < count; i++) all += memory[i];
    return all;
}

typedef void begin_call(uint32_t *, uint32_t *, uint32_t *, uint32_t *);
typedef void feed_call(uint32_t *, uint32_t *, uint32_t *, uint32_t *, uint8_t, uint32_t, uint32_t, uint32_t *);

/* Tables, answers and totals are unset before their calls. Starts come first and joins last, so that there are tasks to act; an owned before
 * all of them or in their midst. */
static void fed(const char *name, begin_call *begin, feed_call *feed, size_t size, int owned) {
    static const uint8_t kinds[] = {ORDER_START, ORDER_WRITE, ORDER_GIVE, ORDER_SET,  ORDER_OWNED, ORDER_LOST, ORDER_FRESH, ORDER_TAKE,
                                    ORDER_GIVE,  ORDER_LOOK,  ORDER_MISS, ORDER_READ, ORDER_BUMP,  ORDER_JOIN, ORDER_TAKE,  255};
    static const uint32_t numbers[] = {0, 1, 3, 15, 16, 31, 32, 63, 64, 32768, 65535, 65536, UINT32_MAX};
    enum { KINDS = sizeof kinds, NUMBERS = sizeof numbers / sizeof numbers[0] };
    uint32_t *control = cells(ORDER_CONTROL_CELLS), *last = cells(ORDER_HISTORY_CELLS), *arrived = cells(size), *full = cells(size);
    int right = 1;
    begin(control, last, arrived, full);
    if (owned) {
        uint32_t *answer = cells(3);
        feed(control, last, arrived, full, ORDER_OWNED, 0, 0, answer);
        right = answer[0] == ORDER_ACCEPTED && answer[1] == 1 && answer[2] == 0;
        free(answer);
    }
    for (size_t i = 0; i < KINDS * NUMBERS * NUMBERS; i++) {
        uint32_t *answer = cells(3);
        feed(control, last, arrived, full, kinds[i / (NUMBERS * NUMBERS)], numbers[i / NUMBERS % NUMBERS], numbers[i % NUMBERS], answer);
        right = right && answer[0] <= ORDER_DOUBT && answer[1] > 0 && (answer[2] > 0) == (answer[0] >= ORDER_RACE);
        free(answer);
    }
    for (size_t i = 0; i < NUMBERS; i++) {
        uint32_t *totals = cells(3), known = order_totals(control, numbers[i], totals);
        right = right && known == (numbers[i] < 64) && (!known || sum(totals, 3) < KINDS * NUMBERS * NUMBERS);
        free(totals);
    }
    /* Task 0 gave the six semaphores among these numbers last, and takes them again. */
    right = right && order_any_race(control) <= 1 && order_skipped(control) == 6;
    right = right && sum(control, ORDER_CONTROL_CELLS) > 0 && sum(last, ORDER_HISTORY_CELLS) > 0 && sum(arrived, size) > 0 && sum(full, size) > 0;
    if (right) {
        passed++;
    } else {
        failed++;
        printf("FAILED: an answer or a table of the %s\n", name);
    }
    free(control);
    free(last);
    free(arrived);
    free(full);
}

/* The whole state in memory of its own. */
static void fed_whole(uint32_t first) {
    struct order_state *state = malloc(sizeof *state);
    if (!state) abort();
    order_state_begin(state);
    int right = 1;
    for (uint32_t i = 0; i < 500; i++) {
        uint32_t *answer = cells(3);
        if (i == 0) {
            order_step(state, (uint8_t)first, 0, 0, answer);
        } else {
            /* every kind, and numbers of none */
            order_step(state, (uint8_t)(i % 17), i / 17 % 18, i % 67, answer);
        }
        right = right && answer[0] <= ORDER_DOUBT && answer[1] > 0 && (answer[2] > 0) == (answer[0] >= ORDER_RACE);
        free(answer);
    }
    right = right && sum((const uint32_t *)state, sizeof *state / sizeof(uint32_t)) > 0;
    if (right) {
        passed++;
    } else {
        failed++;
        printf("FAILED: an answer or a table of the whole state\n");
    }
    free(state);
}

typedef uint64_t piece_call(struct order_text *, const uint8_t *, size_t, uint8_t *, size_t);

/* One piece in memory of its own, with as much for its report as it wants. Answers how much was written, after what was before. */
static size_t piece(piece_call *call, struct order_text *kept, const char *text, size_t len, uint8_t *whole, size_t before) {
    uint8_t *lent = malloc(len ? len : 1);
    uint8_t *report = malloc(len ? 64 * len : 1);
    if (!lent || !report) abort();
    memcpy(lent, text, len);
    uint64_t n = call(kept, lent, len, report, 64 * len);
    if (n > 64 * len) abort();
    memcpy(whole + before, report, (size_t)n);
    free(lent);
    free(report);
    return before + (size_t)n;
}

/* All pieces of one size, and a rest without LF. */
static size_t pieces(piece_call *call, struct order_text *kept, const char *text, size_t len, size_t size, uint8_t *whole, size_t before) {
    for (size_t at = 0; at < len; at += size) before = piece(call, kept, text + at, len - at < size ? len - at : size, whole, before);
    return kept->progress[1] > 0 ? piece(call, kept, "\n", 1, whole, before) : before;
}

/* A text in pieces of one size, what is kept being unset before its begin, against the report of the whole text. */
static void cut(const char *text, size_t len, size_t size) {
    size_t most = 64 * lines(text, len);
    uint8_t *expected = malloc(most), *whole = malloc(most);
    struct order_text *kept = malloc(sizeof *kept);
    if (!expected || !whole || !kept) abort();
    order_text_begin(kept);
    size_t total = pieces(order_text_piece, kept, text, len, size, whole, 0);
    uint64_t n = order_report((const uint8_t *)text, len, expected, most);
    if (total == n && memcmp(whole, expected, total) == 0) {
        passed++;
    } else {
        failed++;
        printf("FAILED: a text in pieces of %zu: %zu bytes of report\n", size, total);
    }
    free(expected);
    free(whole);
    free(kept);
}

/* A file of entries in pieces of one size, then a text in pieces of another, what is kept being unset before its begin. Answers how much was
 * written. The entries are asked to end twice, in no memory where nothing is left. */
static size_t entered(const char *file, size_t file_len, size_t size, const char *text, size_t len, size_t other, uint8_t *whole) {
    struct order_text *kept = malloc(sizeof *kept);
    uint8_t *none = malloc(1);
    if (!kept || !none) abort();
    order_text_begin(kept);
    size_t total = pieces(order_text_entries, kept, file, file_len, size, whole, 0);
    if (order_text_entries_end(kept, none, 0) || order_text_entries_end(kept, none, 0)) abort();
    total = pieces(order_text_piece, kept, text, len, other, whole, total);
    if (sum(kept->state.control, ORDER_CONTROL_CELLS) == 0) abort();
    free(kept);
    free(none);
    return total;
}

/* However the two are cut, the same is written, and more than without entries. */
static void cut_entries(const char *file, size_t file_len, const char *text, size_t len) {
    size_t most = 64 * (lines(file, file_len) + lines(text, len));
    uint8_t *expected = malloc(most), *whole = malloc(most);
    if (!expected || !whole) abort();
    size_t n = entered(file, file_len, file_len, text, len, len, expected), plain = entered("", 0, 1, text, len, len, whole);
    int right = n > plain && memcmp(expected, "entry=", 6) == 0 && memcmp(whole, "entry=", 6) != 0;
    for (size_t size = 1; size <= file_len; size = size < 70 ? size + 1 : 2 * size) {
        size_t total = entered(file, file_len, size, text, len, 71 - size % 70, whole);
        right = right && total == n && memcmp(whole, expected, n) == 0;
    }
    if (right) {
        passed++;
    } else {
        failed++;
        printf("FAILED: a text after entries: %zu bytes, and %zu without\n", n, plain);
    }
    free(expected);
    free(whole);
}

/* The first so many records of a list, all kinds by turns once all tasks are started, the last one being as it is given. Where semaphores are
 * owned, each task by turns takes one, writes and gives it. */
static void listed(size_t len, uint8_t last, uint64_t refusal, int owned) {
    static const uint8_t kinds[] = {ORDER_WRITE, ORDER_GIVE, ORDER_SET,  ORDER_TAKE,  ORDER_LOOK, ORDER_READ,
                                    ORDER_BUMP,  ORDER_MISS, ORDER_LOST, ORDER_FRESH, ORDER_WRITE};
    static const uint8_t turns[] = {ORDER_TAKE, ORDER_WRITE, ORDER_GIVE};
    uint32_t (*list)[3] = malloc(len ? len * sizeof *list : 1);
    uint64_t *answer = malloc(4 * sizeof *answer);
    if (!list || !answer) abort();
    if (owned) list[0][0] = ORDER_OWNED, list[0][1] = list[0][2] = 0;
    for (uint32_t at = owned ? 1 : 0; at < len; at++) {
        uint32_t i = owned ? at - 1 : at;
        list[at][0] = at + 1 == len ? last : i < 15 ? ORDER_START : owned ? turns[i % 3] : kinds[i % sizeof kinds];
        list[at][1] = i < 15 ? 0 : i / 3 % 16;
        list[at][2] = i < 15 ? i + 1 : i / (owned ? 3 : 7) % 31 + 1;
        if (list[at][0] == ORDER_OWNED) list[at][2] = 0;
    }
    order_lazy(list, len, answer);
    int right = answer[0] == refusal && answer[1] <= UINT16_MAX && (answer[2] & ~answer[1]) == 0 && answer[3] <= 15 * len;
    if (len) right = right && (answer[1] >> list[len - 1][1] & 1) == 0;
    if (refusal) right = right && answer[1] == 0 && answer[3] == 0;
    /* The same list with a home set. */
    uint32_t *settled = malloc(2 * sizeof *settled);
    if (!settled) abort();
    order_settle(list, len, 0x5555, settled);
    int access = len && last == ORDER_WRITE;
    right = right && settled[0] == refusal && (access ? settled[1] == ORDER_NO || settled[1] == ORDER_YES : settled[1] == ORDER_NEITHER);
    if (right) {
        passed++;
    } else {
        failed++;
        printf("FAILED: the answer to a list of %zu records\n", len);
    }
    free(list);
    free(answer);
    free(settled);
}

static void lazily(void) {
    listed(0, ORDER_WRITE, 0, 0);
    for (size_t len = 1; len < 4000; len += len < 100 ? 1 : 389) {
        listed(len, ORDER_WRITE, 0, 0);
        listed(len, ORDER_GIVE, 0, 0);
        listed(len, 255, 1, 0);
        if (len < 2) continue;
        /* A give in the place of a take has no holder. */
        int held = len >= 17 && (len - 2) % 3 != 0;
        listed(len, ORDER_WRITE, 0, 1);
        listed(len, ORDER_GIVE, held ? 0 : 16, 1);
        listed(len, ORDER_OWNED, 14, 1);
        listed(len, ORDER_LOST, 15, 1);
        listed(len, 255, 1, 1);
    }
}

int main(void) {
    static const char sample[] =
        "op=start task=0 on=1\nop=write task=0 on=5\nop=give task=0 on=31\nop=set task=0 on=31\nop=lost tasks=3\nop=take task=1 on=31\n"
        "op=look task=1 on=31\nop=read task=1 on=63\nop=write task=1 on=5\nop=start task=1 on=15\nop=read task=15 on=5\nop=join task=0 on=15\n"
        "op=join task=0 on=15\nop=lost tasks=32769\nop=read task=99999 on=99999\nop=lost tasks=99999\nop=lost tasks=0\n\nop=read task=0 on=5";
    size_t len = sizeof sample - 1;
    around(sample, 0);
    around(sample, len);
    call(sample, len, 0, 0);
    call(sample, len, 64 * lines(sample, len) + 1, 1);
    for (size_t cut = 1; cut < len; cut += 5) around(sample, cut);
    for (size_t cut = 1; cut < len; cut += 23) around(sample + cut, len - cut);
    for (size_t length = 0; length < 64; length++) call("op=read task=0 on=1", 19, length, 0);
    for (size_t size = 1; size <= len; size = size < 70 ? size + 1 : 2 * size) cut(sample, len, size);
    static const char file[] = "rec=00012 var=5 low=0 high=1 mark=accepted\nrec=00000 var=5 low=0 high=1 mark=open\n\n"
                               "rec=4000000 var=63 low=14 high=15 mark=accepted\nrec=0000001 var=5 low=1 high=15 mark=open\n"
                               "rec=00001 var=64 low=1";
    for (size_t cut = sizeof file - 1; cut > 50; cut -= 7) cut_entries(file, cut, sample, len);
    for (int owned = 0; owned <= 1; owned++) {
        fed("clocks", order_begin, order_feed, ORDER_CLOCK_CELLS, owned);
        fed_whole(owned ? ORDER_OWNED : ORDER_READ);
        fed("sets", order_sets_begin, order_sets_feed, ORDER_SET_CELLS, owned);
    }
    lazily();
    printf("memory: %d passed, %d failed\n", passed, failed);
    return failed != 0;
}
