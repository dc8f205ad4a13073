/* The order checker for a host program in C. Link the archives whose functions are used: `tools/archives NAME` proves and compiles
 * crates/NAME_c, and writes target/staticlib/libNAME.a, where NAME is report (order_report), host (a running state and the sets, fed record by
 * record, their totals and skipped takes; order_lazy, order_settle), gateway (order_step) or pieces (order_piece, order_entries). */
#ifndef ORDER_H
#define ORDER_H

#include <stddef.h>
#include <stdint.h>

#ifdef __cplusplus
extern "C" {
#endif

/* What order_report, order_piece and order_entries answer where the report memory is too small. */
#define ORDER_TOO_SMALL UINT64_MAX

/* Reads a recording as text and writes its report.
 *
 * text, text_len: the recording, any bytes at all. A line ends with LF; a rest without LF is a line too.
 * report, report_len: memory for the report, at least 64 bytes for each line of the text.
 *
 * For an accepted access a line `rec=0000009 task=1 var=5 verdict=race with=0000002` is written, record numbers in seven digits; for a refused
 * line `line=10 refused=6`. 4,000,000 records are accepted, and those after them refused with 5.
 *
 * Answers the count of bytes written, which stand at the start of `report`; the bytes after them stay as they were.
 * Where report_len is under 64 bytes for each line it answers ORDER_TOO_SMALL, and `report` is untouched; this is looked at before
 * any line. Each call begins from a fresh state, without entries.
 *
 * Both pointers must be valid for their lengths and not null, also where a length is 0, and the two must not overlap.
 * The call needs under 40 kilobytes of stack. */
uint64_t order_report(const uint8_t *text, size_t text_len, uint8_t *report, size_t report_len);

/* The kinds of records, for a host that feeds them one by one, without text. A record has a kind, an acting task and a number: of a
 * variable, a semaphore, a flag or a task; 0 for ORDER_OWNED. A loss mark has its mask there, and its task is not looked at.
 *
 * ORDER_OWNED, by any live task, says that semaphores are owned from there on: as the first record, or where a controller was updated. All are
 * free at that point; a take makes its task the holder, and a give frees the semaphore. Order from before remains, and so do loss marks.
 * Refused after it:
 *   14  a second ORDER_OWNED
 *   15  a loss mark, so that no access is a Doubt but for marks before it
 *   16  a take of a semaphore that is held, or a give by a task that does not hold it */
#define ORDER_READ 0
#define ORDER_WRITE 1
#define ORDER_TAKE 2
#define ORDER_GIVE 3
#define ORDER_LOOK 4
#define ORDER_SET 5
#define ORDER_START 6
#define ORDER_JOIN 7
#define ORDER_LOST 8
#define ORDER_FRESH 9 /* a variable is laid out anew: what was done to it before no longer counts */
#define ORDER_MISS 10 /* a wait for a semaphore that ran out */
#define ORDER_BUMP 11 /* raises or lowers a variable in one stroke: an access */
#define ORDER_OWNED 12 /* semaphores are owned from here on: a take needs a free one, a give its holder */

/* An answer is three numbers. The first is one of these. The second is the number of the refusal where the record was refused, and
 * the record number where it was taken. The third is the record number of the partner, for Race and Doubt, and 0 otherwise. */
#define ORDER_REFUSED 0  /* the state is as it was */
#define ORDER_ACCEPTED 1 /* taken, and no access */
#define ORDER_CLEAR 2    /* an access, and its verdict */
#define ORDER_RACE 3
#define ORDER_DOUBT 4

/* How many cells each table of a running state has. */
#define ORDER_CONTROL_CELLS 1301
#define ORDER_HISTORY_CELLS 3072
#define ORDER_CLOCK_CELLS 1312
#define ORDER_SET_CELLS 7872

/* A running state, which the host keeps and lends to each call. Nobody else may write to it between its begin and its last record.
 * What its cells hold is the checker's own affair; there may be as many states as the host likes. */
struct order_state {
    uint32_t control[ORDER_CONTROL_CELLS], last[ORDER_HISTORY_CELLS], clocks[ORDER_CLOCK_CELLS], fullclocks[ORDER_CLOCK_CELLS];
};

/* Makes the lent tables those of a fresh state, whatever they held. */
void order_begin(uint32_t control[ORDER_CONTROL_CELLS], uint32_t last[ORDER_HISTORY_CELLS], uint32_t clocks[ORDER_CLOCK_CELLS],
                 uint32_t fullclocks[ORDER_CLOCK_CELLS]);

/* Feeds one record, of any numbers at all, to the state in the lent tables and writes the answer.
 *
 * Here as in order_begin the pointers must be valid for their sizes, aligned and not null, and no two may overlap. */
void order_feed(uint32_t control[ORDER_CONTROL_CELLS], uint32_t last[ORDER_HISTORY_CELLS], uint32_t clocks[ORDER_CLOCK_CELLS],
                uint32_t fullclocks[ORDER_CLOCK_CELLS], uint8_t kind, uint32_t task, uint32_t on, uint32_t answer[3]);

/* The two with a whole state. */
static inline void order_state_begin(struct order_state *s) {
    order_begin(s->control, s->last, s->clocks, s->fullclocks);
}

static inline void order_state_feed(struct order_state *s, uint8_t kind, uint32_t task, uint32_t on, uint32_t answer[3]) {
    order_feed(s->control, s->last, s->clocks, s->fullclocks, kind, task, on, answer);
}

/* How many accesses of a variable were Clear, Race and Doubt so far, in this order: writes the three counts and answers 1. Their sum is the
 * number of its accepted accesses; refused records count nowhere, and ORDER_FRESH sets no count back. Where there is no such variable it
 * answers 0, and `totals` is untouched.
 *
 * control: that of a running state or of the sets, which is read alone. It may be asked at any moment between two records. A count at
 * the end of its 32 bits, which no recording comes to, stays there.
 *
 * Here as in order_any_race the pointers must be valid for their sizes, aligned and not null, and the two must not overlap. */
uint32_t order_totals(const uint32_t control[ORDER_CONTROL_CELLS], uint32_t variable, uint32_t totals[3]);

/* Whether any access of any variable was a Race so far: 1 or 0. It looks at one cell. */
uint32_t order_any_race(const uint32_t control[ORDER_CONTROL_CELLS]);

/* How many takes were skipped so far: after ORDER_OWNED, takes of a semaphore whose last give since then was the same task's, for which no
 * clocks are compared. Refused records count nowhere; without ORDER_OWNED it is 0. No verdict depends on it.
 *
 * control: as in order_any_race. By the sets, which compare no clocks, it is the same count. */
uint32_t order_skipped(const uint32_t control[ORDER_CONTROL_CELLS]);

/* The three with a whole state. */
static inline uint32_t order_state_totals(const struct order_state *s, uint32_t variable, uint32_t totals[3]) {
    return order_totals(s->control, variable, totals);
}

static inline uint32_t order_state_any_race(const struct order_state *s) {
    return order_any_race(s->control);
}

static inline uint32_t order_state_skipped(const struct order_state *s) {
    return order_skipped(s->control);
}

/* The same as order_state_feed by one call that is lent the whole state. It copies the state there and back, 27 kilobytes, so that a record
 * took 49 to 118 times as long with the older kit (medians: some 1,600 ns against 32 in a mixed recording of 16 tasks, and against 14 for accesses of one
 * task); the two may be mixed. Needs libgateway.a. */
void order_step(struct order_state *s, uint8_t kind, uint32_t task, uint32_t on, uint32_t answer[3]);

/* So many bytes of a line are held at most: no line of more than 64 is a record or an entry. */
#define ORDER_HELD_BYTES 65

/* A text that comes in pieces, over hours if need be, cut anywhere: its running state and what is kept of it between two pieces. The host
 * keeps one of these for each text, and nobody else may write to it between its begin and its end.
 *
 *     static struct order_text text;
 *     static uint8_t piece[512], report[64 * sizeof piece];
 *
 *     order_text_begin(&text);
 *     while ((len = receive(piece, sizeof piece)) > 0) show(report, order_text_piece(&text, piece, len, report, sizeof report));
 *     show(report, order_text_end(&text, report, sizeof report));
 *
 * What is shown so, one after the other, is the report that order_report writes of the whole text. Needs libhost.a and libpieces.a.
 *
 * A planner's entries, the faults that are accepted already, come before the recording, in pieces as well:
 *
 *     order_text_begin(&text);
 *     while ((len = read_entries(piece, sizeof piece)) > 0) show(report, order_text_entries(&text, piece, len, report, sizeof report));
 *     show(report, order_text_entries_end(&text, report, sizeof report));
 *
 * and then the recording as above. What is shown so is what the program `order` prints where the entries are its accepted.txt. */
struct order_text {
    struct order_state state;
    uint64_t progress[2]; /* how many lines are answered, and how many bytes are held of the line that has begun */
    uint8_t held[ORDER_HELD_BYTES];
};

/* Answers the lines that end in a piece of a text: writes their part of the report.
 *
 * piece, piece_len: the next bytes of the text, any at all, also none. What follows the last LF is held for the next piece.
 * report, report_len: memory for the report, at least 64 bytes for each byte of the piece, since each may end a line.
 * held, progress, and the tables of a running state: what is kept of the text; a text begins with a fresh state and with progress 0, 0.
 *
 * Answers the count of bytes written, which stand at the start of `report`; the bytes after them stay as they were.
 * Where report_len is under 64 bytes for each byte of the piece it answers ORDER_TOO_SMALL, and nothing is changed. So it does where
 * `progress` is nothing that a piece leaves: more than ORDER_HELD_BYTES held, or so many lines that 64 bits could not count on.
 *
 * A text may end without LF. Its last line is then answered by one piece more, of LF alone.
 *
 * The pointers must be valid for their lengths and sizes, aligned and not null, also where a length is 0, and no two may overlap.
 * The call needs under 1 kilobyte of stack. */
uint64_t order_piece(const uint8_t *piece, size_t piece_len, uint8_t *report, size_t report_len, uint8_t held[ORDER_HELD_BYTES],
                     uint64_t progress[2], uint32_t control[ORDER_CONTROL_CELLS], uint32_t last[ORDER_HISTORY_CELLS],
                     uint32_t clocks[ORDER_CLOCK_CELLS], uint32_t fullclocks[ORDER_CLOCK_CELLS]);

/* Begins a text, whatever was there. */
static inline void order_text_begin(struct order_text *t) {
    order_state_begin(&t->state);
    t->progress[0] = t->progress[1] = 0;
}

/* The same as order_piece. */
static inline uint64_t order_text_piece(struct order_text *t, const uint8_t *piece, size_t piece_len, uint8_t *report, size_t report_len) {
    return order_piece(piece, piece_len, report, report_len, t->held, t->progress, t->state.control, t->state.last, t->state.clocks,
                       t->state.fullclocks);
}

/* Ends a text: answers a last line without LF, if there is one. 64 bytes of report are enough. */
static inline uint64_t order_text_end(struct order_text *t, uint8_t *report, size_t report_len) {
    const uint8_t lf = '\n';
    return t->progress[1] == 0 ? 0 : order_text_piece(t, &lf, 1, report, report_len);
}

/* Takes in a planner's entries, from a file that comes in pieces like a recording: those whose lines end in the piece. An entry is a line
 * `rec=0000012 var=5 low=1 high=3 mark=accepted`, or the same with mark=open: where the fault was seen, in seven digits, 0000001 to 4000000,
 * or in five, 00001 to 99999, which mean the same number; its variable, 0 to 63; its two tasks, the lower one first, 0 to 15. Lines end and
 * the other numbers are written as in a recording. Of two entries for the same variable and tasks the later one holds, so that an open undoes
 * an accepted.
 *
 * In what order_piece then writes, a Race is `verdict=known` where the acting task is accepted for that variable with every task that it is
 * not in order with, whatever was lost; `with` is as it would be without entries. Otherwise it is `verdict=race`, and `with` is the latest
 * access of the lowest of the tasks that it is not accepted with. Nothing else changes: a known Race is a Race still, and is counted as one.
 *
 * For an entry that is refused `entry=4 refused=12` is written, with its line in the file, and it is left out:
 *   12  the line is not of this form, or a number is out of its range; this is looked at first
 *   13  200 entries have been taken in already, and each counts that was taken, also one that replaced another, and an open
 *
 * piece, report, held, progress: as in order_piece, and so are the count of bytes that is answered, ORDER_TOO_SMALL, and a last line
 * without LF.
 * control: that of a fresh running state. The entries lie in it, and order_begin forgets them. They are to be taken in before the first
 * record, and `progress` is to be 0, 0 again before the first piece of the recording.
 *
 * The pointers must be valid for their lengths and sizes, aligned and not null, also where a length is 0, and no two may overlap. */
uint64_t order_entries(const uint8_t *piece, size_t piece_len, uint8_t *report, size_t report_len, uint8_t held[ORDER_HELD_BYTES],
                       uint64_t progress[2], uint32_t control[ORDER_CONTROL_CELLS]);

/* The same as order_entries. */
static inline uint64_t order_text_entries(struct order_text *t, const uint8_t *piece, size_t piece_len, uint8_t *report,
                                          size_t report_len) {
    return order_entries(piece, piece_len, report, report_len, t->held, t->progress, t->state.control);
}

/* Ends the entries: answers a last line without LF, if there is one, so that the recording may begin. 64 bytes of report are enough; where
 * they are wanted and not there, it answers ORDER_TOO_SMALL, and nothing is changed. */
static inline uint64_t order_text_entries_end(struct order_text *t, uint8_t *report, size_t report_len) {
    const uint8_t lf = '\n';
    uint64_t n = t->progress[1] == 0 ? 0 : order_text_entries(t, &lf, 1, report, report_len);
    if (n != ORDER_TOO_SMALL) t->progress[0] = t->progress[1] = 0;
    return n;
}

/* The totals and the skipped takes of the lines that have ended, between two pieces. */
static inline uint32_t order_text_totals(const struct order_text *t, uint32_t variable, uint32_t totals[3]) {
    return order_state_totals(&t->state, variable, totals);
}

static inline uint32_t order_text_any_race(const struct order_text *t) {
    return order_state_any_race(&t->state);
}

static inline uint32_t order_text_skipped(const struct order_text *t) {
    return order_state_skipped(&t->state);
}

/* The same reckoned by sets in place of clocks, for a host that wants a second opinion: a state of its own, the same answer to each
 * record. */
struct order_sets {
    uint32_t control[ORDER_CONTROL_CELLS], last[ORDER_HISTORY_CELLS], sets[ORDER_SET_CELLS], fullsets[ORDER_SET_CELLS];
};

void order_sets_begin(uint32_t control[ORDER_CONTROL_CELLS], uint32_t last[ORDER_HISTORY_CELLS], uint32_t sets[ORDER_SET_CELLS],
                      uint32_t fullsets[ORDER_SET_CELLS]);

void order_sets_feed(uint32_t control[ORDER_CONTROL_CELLS], uint32_t last[ORDER_HISTORY_CELLS], uint32_t sets[ORDER_SET_CELLS],
                     uint32_t fullsets[ORDER_SET_CELLS], uint8_t kind, uint32_t task, uint32_t on, uint32_t answer[3]);

static inline void order_sets_state_begin(struct order_sets *s) {
    order_sets_begin(s->control, s->last, s->sets, s->fullsets);
}

static inline void order_sets_state_feed(struct order_sets *s, uint8_t kind, uint32_t task, uint32_t on, uint32_t answer[3]) {
    order_sets_feed(s->control, s->last, s->sets, s->fullsets, kind, task, on, answer);
}

static inline uint32_t order_sets_state_totals(const struct order_sets *s, uint32_t variable, uint32_t totals[3]) {
    return order_totals(s->control, variable, totals);
}

static inline uint32_t order_sets_state_any_race(const struct order_sets *s) {
    return order_any_race(s->control);
}

static inline uint32_t order_sets_state_skipped(const struct order_sets *s) {
    return order_skipped(s->control);
}

/* The lazy reckoning, for a host that has a recording in memory as a list of records and asks about the access that ends it: which other
 * tasks have an earlier access that conflicts with it, and for which of them a path leads from the latest of these here. Nothing is kept
 * between two calls.
 *
 *     static const uint32_t list[][3] = {
 *         {ORDER_START, 0, 1}, {ORDER_WRITE, 0, 5}, {ORDER_GIVE, 0, 2}, {ORDER_TAKE, 1, 2}, {ORDER_READ, 1, 5}};
 *     uint64_t answer[4];
 *
 *     order_lazy(list, sizeof list / sizeof list[0], answer);
 *
 * answers 0, 1, 1, 2: none is refused, task 0 has a pair, a path leads here, and the give and the take were walked.
 *
 * list, len: the records since a fresh state, each a kind, a task and a number, any numbers at all; there may be none.
 * answer: four numbers are written.
 *   answer[0]  the number of the refusal of the first record that is refused, 0 where none is. Where it is not 0, the other three are.
 *   answer[1]  the tasks that have a pair, bit i for task i: a latest earlier access that conflicts with the one that ends the list. 0
 *              where there are no records, or the last is no access.
 *   answer[2]  of these, the tasks from whose access a path leads here, by the records that arrived: loss marks carry nothing. The access
 *              is Clear exactly where this is the same as answer[1].
 *   answer[3]  the records walked, summed over these tasks: after the task's access the takes, gives, looks, sets, starts and joins,
 *              whoever acts, up to and with the first that brings order to the acting task; all of them where none does. Nothing is
 *              walked for a task where a write of the variable by the acting task stands after that access and was in order with all
 *              of its own pairs; the answer is yes then.
 *
 * The pointers must be valid for their sizes, aligned and not null, also where len is 0, and the two must not overlap.
 * The memory is fixed whatever the length of the list: the call needs under 16 kilobytes of stack. Needs libhost.a. */
void order_lazy(const uint32_t (*list)[3], size_t len, uint64_t answer[4]);

/* What order_settle answers. */
#define ORDER_NEITHER 0 /* a record is refused, there are no records, or the last is no access */
#define ORDER_NO 1      /* home cannot force Clear */
#define ORDER_YES 2     /* home can */

/* Whose lost records could have settled a Doubt, for a host that has a recording in memory as a list of records and asks about the access
 * that ends it. Some tasks are the home side, those of one controller say, and all others are the far side. Home can force Clear where
 * there are records of its own for the loss marks such that, with any far records put among them at the same marks, the access is in order
 * with every earlier one that it conflicts with. Each side writes for those of its tasks that the mark names, of the kinds that can be lost:
 * takes, gives, looks, sets and misses. Where home cannot, far has records, whatever home's are, with which the access is not in order.
 *
 *     static const uint32_t list[][3] = {
 *         {ORDER_START, 0, 1}, {ORDER_WRITE, 0, 5}, {ORDER_GIVE, 0, 2}, {ORDER_LOST, 0, 2}, {ORDER_READ, 1, 5}};
 *     uint32_t answer[2];
 *
 *     order_settle(list, sizeof list / sizeof list[0], 1 << 1, answer);
 *
 * answers 0, ORDER_YES: one of the records that task 1 lost may have taken semaphore 2. For a home of task 0 alone it is ORDER_NO.
 *
 * list, len: the records since a fresh state, each a kind, a task and a number, any numbers at all; there may be none.
 * home: the home side, bit i for task i; any set, also the empty and the full one. A task that no mark names makes no difference.
 * answer: two numbers are written.
 *   answer[0]  the number of the refusal of the first record that is refused, 0 where none is.
 *   answer[1]  ORDER_NEITHER where a record is refused, there are no records or the last is no access; otherwise ORDER_YES or ORDER_NO. A
 *              Clear gets ORDER_YES and a Race ORDER_NO, whatever home is; a Doubt gets ORDER_NO of the empty set and ORDER_YES of the full
 *              one, and a larger home never turns yes into no.
 *
 * Nothing is kept between two calls. The pointers must be valid for their sizes, aligned and not null, also where len is 0, and the two must
 * not overlap. The memory is fixed whatever the length of the list: the call needs under 32 kilobytes of stack. Needs libhost.a. */
void order_settle(const uint32_t (*list)[3], size_t len, uint16_t home, uint32_t answer[2]);

#ifdef __cplusplus
}
#endif

#endif
