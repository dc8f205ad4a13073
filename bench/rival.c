/* The rival: an unverified program written for speed that does the checker's job without the sets.
 *
 * Text in, happens-before by vector clocks for the recording as it arrived and for the fullest filling, verdicts, partners, refusals, totals
 * and skipped takes, report text out: byte for byte the report of `order_report`. What makes it fast, and what a proof would have to carry
 * along:
 * - With -DWIDE clocks are 16 cells of 32 bits, as 4,000,000 records need. A cell has its number in the mantissa of a float: below 2^23
 *   floats keep the order of the numbers, and plain x86-64 has the greater of four floats as one instruction, which it has not for whole
 *   numbers of 32 bits. Without -DWIDE cells have 16 bits, less 32,768, since the greater of eight is there for signed numbers: that is no
 *   longer the job, since such a clock ends at 65,535 records. It is kept to show what the width costs, on recordings that it can count.
 * - An access changes single cells; no row is joined for it. Its verdict, its partner and the words of its line are picked without a branch.
 * - A take, give, look or set is one body: the row that it changes, the task's or the object's, becomes the greater of the two.
 * - Once a task has acted, what a join of it hears is what its next act would know; that it has acted is seen from its own cell.
 * - A mark makes all objects know the same: one row, the hub, stands for all that no give or set has told since.
 * - A line is read by three loads of eight bytes, each compared with the one entry of a table that it can be, and where the next line begins
 *   and what its op is are known before this one is fed. What does not compare (marks, long numbers, bent lines) is read byte by byte.
 * - The words of a report line are those of the recording's, as far as they are the same. A record number's digits are worked out once for
 *   each hundred, and a partner's all at once.
 * - With owned semaphores one filling is enough where there was no mark before the change, since none comes after it. A take that may be
 *   skipped is counted and joins all the same: its join changes nothing, and is cheaper than the branch around it.
 *
 * Built alone it is a program, standard input to standard output; with -DENTRY it is a second `order_report`. */
#define _GNU_SOURCE
#include <emmintrin.h>
#include <stddef.h>
#include <stdint.h>
#include <string.h>

#define TOO_SMALL UINT64_MAX
#define INLINE static inline __attribute__((always_inline))
#define RARE static __attribute__((noinline)) /* so that the loop over lines stays small */

/* Of the four hand-overs the lowest bit is set where the object is told, and the next where it is a flag. */
enum { READ, WRITE, BUMP, TAKE = 4, GIVE, LOOK, SET, START, JOIN, LOST, FRESH, MISS, OWNED };

/* ---- clocks: a cell for each task */

#ifdef WIDE

#define LIMIT 4000000u
#define PARTS 4

typedef uint32_t Cell;
typedef __m128 Part;

#define NOTHING 0u
INLINE Cell cell(uint32_t number) { return 0x3f800000u + number; } /* 1.0, and the number in its mantissa */
INLINE uint32_t number_in(Cell c) { return c & 0x7fffffu; }
INLINE Part greater(Part a, Part b) { return _mm_max_ps(a, b); }

#else

#define LIMIT 65535u
#define PARTS 2

typedef uint16_t Cell;
typedef __m128i Part;

#define NOTHING 0x8000u
INLINE Cell cell(uint32_t number) { return (Cell)(number ^ 0x8000u); }
INLINE uint32_t number_in(Cell c) { return c ^ 0x8000u; }
INLINE Part greater(Part a, Part b) { return _mm_max_epi16(a, b); }

#endif

typedef struct {
    Part part[PARTS];
} Clock;

INLINE Cell *cells(Clock *c) { return (Cell *)c; }

INLINE void join_clocks(Clock *to, const Clock *a, const Clock *b) {
    for (int i = 0; i < PARTS; i++) to->part[i] = greater(a->part[i], b->part[i]);
}

/* The tasks whose latest access is not known. */
INLINE uint32_t apart(const Clock *latest, const Clock *known) {
#ifdef WIDE
    __m128i later[4];
    for (int i = 0; i < 4; i++) later[i] = _mm_castps_si128(_mm_cmplt_ps(known->part[i], latest->part[i]));
    __m128i low = _mm_packs_epi32(later[0], later[1]), high = _mm_packs_epi32(later[2], later[3]);
#else
    __m128i low = _mm_cmpgt_epi16(latest->part[0], known->part[0]), high = _mm_cmpgt_epi16(latest->part[1], known->part[1]);
#endif
    return (uint32_t)_mm_movemask_epi8(_mm_packs_epi16(low, high));
}

/* ---- the state */

enum { SEMAPHORES = 16, FLAGS = 48, HUB = 80, ROWS }; /* tasks' rows come first */
enum { RACE, DOUBT, CLEAR };

typedef struct {
    Clock arrived, fullest;
} Row;

typedef struct {
    uint32_t of[64][4], anywhere[4]; /* verdicts, of each variable and together */
    uint32_t skipped;
} Totals;

typedef struct {
    Row row[ROWS];
    Clock latest[64][3]; /* by the kind that asks (read, write, bump): the latest access of a variable by each task that conflicts with it */
    Totals totals;
    uint8_t knows[ROWS]; /* the row that has what an object knows in the fullest filling: its own, or the hub */
    uint8_t holder[32], giver[32]; /* with owned semaphores: a task and one more, 0 for nobody */
    uint32_t live, unseen, lost, owned, single; /* lost: the tasks of all marks; single: one filling is enough */
    uint32_t count, refused;
} State;

static void clear(Clock *c, size_t clocks) {
    for (size_t i = 0; i < 16 * clocks; i++) cells(c)[i] = (Cell)NOTHING;
}

static void fresh(State *s) {
    memset(s, 0, sizeof *s);
    if (NOTHING) clear(&s->row[0].arrived, 2 * ROWS), clear(s->latest[0], 64 * 3);
    memset(s->knows, HUB, sizeof s->knows);
    s->live = 1;
    s->unseen = 0xfffe;
}

/* ---- words of a line */

INLINE uint64_t eight(const void *p) {
    uint64_t v;
    memcpy(&v, p, 8);
    return v;
}

INLINE uint32_t four(const void *p) {
    uint32_t v;
    memcpy(&v, p, 4);
    return v;
}

INLINE uint32_t two(const void *p) {
    uint16_t v;
    memcpy(&v, p, 2);
    return v;
}

INLINE void put_eight(uint8_t *o, uint64_t v) { memcpy(o, &v, 8); }

#define TWO(a, b) ((uint32_t)(a) | (uint32_t)(b) << 8)
#define FOUR(a, b, c, d) (TWO(a, b) | TWO(c, d) << 16)
#define EIGHT(a, b, c, d, e, f, g, h) ((uint64_t)FOUR(a, b, c, d) | (uint64_t)FOUR(e, f, g, h) << 32)

/* In each table a word stands where some bytes of it lead by a product. No guess need be right: the whole word is compared. */

/* `op=W `, as far as eight bytes go, and where ` task=` begins, less six. A mark has no ` task=`, and is said to be longer than it is, so that
 * it is not taken for a line that has. */
typedef struct {
    uint64_t word;
    uint32_t kind, longer;
} Op;

#define OP_SLOT(four) ((uint32_t)((four) * 0x514u) >> 28)
#define OP(kind, longer, a, b, c, d, e) [OP_SLOT(FOUR(a, b, c, d))] = {EIGHT('o', 'p', '=', a, b, c, d, e), kind, longer}

static const Op ops[16] = {
    OP(READ, 1, 'r', 'e', 'a', 'd', ' '),  OP(WRITE, 2, 'w', 'r', 'i', 't', 'e'), OP(BUMP, 1, 'b', 'u', 'm', 'p', ' '),
    OP(TAKE, 1, 't', 'a', 'k', 'e', ' '),  OP(GIVE, 1, 'g', 'i', 'v', 'e', ' '),  OP(LOOK, 1, 'l', 'o', 'o', 'k', ' '),
    OP(SET, 0, 's', 'e', 't', ' ', 't'),   OP(START, 2, 's', 't', 'a', 'r', 't'), OP(JOIN, 1, 'j', 'o', 'i', 'n', ' '),
    OP(LOST, 2, 'l', 'o', 's', 't', ' '),  OP(FRESH, 2, 'f', 'r', 'e', 's', 'h'), OP(MISS, 1, 'm', 'i', 's', 's', ' '),
    OP(OWNED, 2, 'o', 'w', 'n', 'e', 'd'),
};

INLINE const Op *op_of(const uint8_t *p) { return &ops[OP_SLOT(four(p + 3))]; }

/* ` task=T` and the blank after it, or ` task=TT`. */
typedef struct {
    uint64_t word, number;
} Task;

#define TASK_SLOT(two) ((uint32_t)((two) * 0xeedf885u) >> 28)
#define TASK(number, a, b) [TASK_SLOT(TWO(a, b))] = {EIGHT(' ', 't', 'a', 's', 'k', '=', a, b), number}

static const Task tasks[16] = {
    TASK(0, '0', ' '),  TASK(1, '1', ' '),  TASK(2, '2', ' '),  TASK(3, '3', ' '),  TASK(4, '4', ' '),  TASK(5, '5', ' '),
    TASK(6, '6', ' '),  TASK(7, '7', ' '),  TASK(8, '8', ' '),  TASK(9, '9', ' '),  TASK(10, '1', '0'), TASK(11, '1', '1'),
    TASK(12, '1', '2'), TASK(13, '1', '3'), TASK(14, '1', '4'), TASK(15, '1', '5'),
};

/* ` on=N` or ` on=NN`, and the LF. */
typedef struct {
    uint64_t word, bytes, number; /* bytes: those that count */
} On;

#define ON_SLOT(two) ((uint32_t)((two) * 0x10ac105au) >> 26)
#define ON_1(a) [ON_SLOT(TWO('0' + a, '\n'))] = {EIGHT(' ', 'o', 'n', '=', '0' + a, '\n', 0, 0), 0xffffffffffff, a}
#define ON_2(a, b) [ON_SLOT(TWO('0' + a, '0' + b))] = {EIGHT(' ', 'o', 'n', '=', '0' + a, '0' + b, '\n', 0), 0xffffffffffffff, a * 10 + b}
#define ON_TEN(a) ON_2(a, 0), ON_2(a, 1), ON_2(a, 2), ON_2(a, 3), ON_2(a, 4), ON_2(a, 5), ON_2(a, 6), ON_2(a, 7), ON_2(a, 8), ON_2(a, 9)

static const On ons[64] = {
    ON_1(0),   ON_1(1),   ON_1(2),   ON_1(3),   ON_1(4),   ON_1(5),    ON_1(6),    ON_1(7),    ON_1(8),    ON_1(9),
    ON_TEN(1), ON_TEN(2), ON_TEN(3), ON_TEN(4), ON_TEN(5), ON_2(6, 0), ON_2(6, 1), ON_2(6, 2), ON_2(6, 3),
};

/* A line that the tables have: the words with its task and its number, and whether those have two digits. */
typedef struct {
    uint64_t who, what;
    uint32_t task, on, task_more, on_more;
} Line;

/* ---- report lines */

/* `=` and seven digits: in two, four and eight parts, all at once. */
INLINE uint64_t seven(uint32_t n) {
    uint64_t high = n * (uint64_t)3518437209u >> 45;
    uint64_t x = ((uint64_t)n << 32) - high * (((uint64_t)10000 << 32) - 1);
    x = (x << 16) - (x * 10486 >> 20 & 0x7f0000007f) * ((100 << 16) - 1);
    x = (x << 8) - (x * 103 >> 10 & 0xf000f000f000f) * ((10 << 8) - 1);
    return x + EIGHT('=', '0', '0', '0', '0', '0', '0', '0');
}

/* What is added to the word of a hundred. */
#define UNIT(a, b) EIGHT(0, 0, 0, 0, 0, 0, a, b)
#define UNITS(a) UNIT(a, 0), UNIT(a, 1), UNIT(a, 2), UNIT(a, 3), UNIT(a, 4), UNIT(a, 5), UNIT(a, 6), UNIT(a, 7), UNIT(a, 8), UNIT(a, 9)

static const uint64_t units[100] = {UNITS(0), UNITS(1), UNITS(2), UNITS(3), UNITS(4), UNITS(5), UNITS(6), UNITS(7), UNITS(8), UNITS(9)};

/* Bytes after the line are written over, up to the 64 that a report has for each. */
INLINE uint8_t *put_access(uint8_t *o, uint64_t number, const Line *l, uint32_t verdict, uint32_t with) {
    static const char words[3][24] = {" verdict=race with", " verdict=doubt with", " verdict=clear with"};
    memcpy(o, "rec", 4);
    put_eight(o + 3, number);
    put_eight(o + 11, l->who);
    o += 18 + l->task_more;
    put_eight(o, EIGHT(' ', 'v', 'a', 'r', '=', 0, 0, 0) | l->what >> 32 << 40);
    o += 6 + l->on_more;
    memcpy(o, words[verdict], 24);
    o += 18 + (verdict != RACE);
    put_eight(o, seven(with));
    o[8] = '\n';
    return o + 9;
}

static uint8_t *put_decimal(uint8_t *o, uint64_t n) {
    uint8_t digits[20];
    int at = 20;
    do digits[--at] = (uint8_t)('0' + n % 10);
    while (n /= 10);
    memcpy(o, digits + at, (size_t)(20 - at));
    return o + (20 - at);
}

/* Each line is accepted or refused, and so many have come. */
static uint8_t *put_refused(State *s, uint8_t *o, uint32_t refusal) {
    s->refused++;
    memcpy(o, "line=", 5);
    o = put_decimal(o + 5, (uint64_t)s->count + s->refused);
    memcpy(o, " refused=", 9);
    o = put_decimal(o + 9, refusal);
    *o = '\n';
    return o + 1;
}

/* ---- the step */

static uint32_t series(uint32_t kind) {
    return kind <= BUMP || kind == FRESH ? 64 : kind <= SET || kind == MISS ? 32 : kind == OWNED ? 1 : 16;
}

static uint32_t refusal(const State *s, uint32_t kind, uint32_t task, uint32_t on) {
    if (kind == LOST) {
        if (on - 1 >= 65535) return 4;
        if (s->count >= LIMIT) return 5;
        return on & ~s->live ? 9 : s->owned ? 15 : 0;
    }
    if (task > 15) return 2;
    if (on >= series(kind)) return 3;
    if (s->count >= LIMIT) return 5;
    if (!(s->live >> task & 1)) return 6;
    if (kind == START) return s->unseen >> on & 1 ? 0 : 7;
    if (kind == JOIN) return on == task ? 8 : s->live >> on & 1 ? 0 : 9;
    if (kind == OWNED) return s->owned ? 14 : 0;
    if (s->owned && kind == TAKE) return s->holder[on] ? 16 : 0;
    if (s->owned && kind == GIVE) return s->holder[on] == task + 1 ? 0 : 16;
    return 0;
}

INLINE uint8_t *judge(State *s, uint8_t *o, uint32_t asks, const Line *l, uint32_t number, uint64_t word) {
    /* Every access conflicts with a write. What does not conflict with its own kind is kept there a second time. */
    static const uint32_t beside[3][2] = {[READ] = {WRITE, BUMP}, [WRITE] = {READ, BUMP}, [BUMP] = {READ, WRITE}};
    Clock *latest = s->latest[l->on];
    Row *row = &s->row[l->task];
    uint32_t arrived = apart(&latest[asks], &row->arrived);
    uint32_t full = s->single ? arrived : apart(&latest[asks], &row->fullest);
    /* A task's own cell is the number of its last act, so it is never apart from itself. The lowest bit: below 16 a Race, below 32 a Doubt. */
    uint32_t first = (uint32_t)__builtin_ctzll((uint64_t)1 << 32 | arrived << 16 | full), verdict = first >> 4;
    uint32_t with = number_in(cells(&latest[asks])[first & 15]) & ((verdict >> 1) - 1);
    Cell now = cell(number);
    s->totals.of[l->on][verdict]++;
    s->totals.anywhere[verdict]++;
    cells(&latest[beside[asks][0]])[l->task] = now;
    cells(&latest[WRITE])[l->task] = now;
    cells(&latest[beside[asks][1]])[l->task] = now;
    cells(&row->arrived)[l->task] = now;
    cells(&row->fullest)[l->task] = now;
    return put_access(o, word, l, verdict, with);
}

/* Whether a take or give keeps to the profile of owned semaphores; if so, it is noted. Without a branch on which of the two it is. */
INLINE int own(State *s, uint32_t kind, uint32_t task, uint32_t on) {
    uint32_t me = task + 1, last = s->giver[on], gives = -(kind & 1);
    if (s->holder[on] != (me & gives)) return 0;
    s->holder[on] = (uint8_t)(me & ~gives);
    s->giver[on] = (uint8_t)(last ^ ((last ^ me) & gives));
    s->totals.skipped += (last == me) & ~gives;
    return 1;
}

/* A take, give, look or set: the row that it changes is the task's or the object's. */
INLINE void hand_over(State *s, uint32_t kind, uint32_t task, uint32_t on, uint32_t number) {
    uint32_t object = SEMAPHORES + (kind & 2) / 2 * (FLAGS - SEMAPHORES) + on, into = task + ((object - task) & -(kind & 1));
    Row *mine = &s->row[task], *to = &s->row[into];
    Cell now = cell(number);
    join_clocks(&to->arrived, &s->row[object].arrived, &mine->arrived);
    if (!s->single) join_clocks(&to->fullest, &s->row[s->knows[object]].fullest, &mine->fullest);
    s->knows[into] = (uint8_t)into;
    /* own cells after the joins, which would wait for them */
    cells(&to->arrived)[task] = now;
    cells(&to->fullest)[task] = now;
    cells(&mine->arrived)[task] = now;
    cells(&mine->fullest)[task] = now;
}

static void mark(State *s, uint32_t mask) {
    Clock hub = s->row[HUB].fullest;
    uint64_t told = 0;
    for (int i = 0; i < 64; i += 16) {
        __m128i by_hub = _mm_cmpeq_epi8(_mm_loadu_si128((const __m128i *)(s->knows + SEMAPHORES + i)), _mm_set1_epi8(HUB));
        told |= (uint64_t)((uint32_t)_mm_movemask_epi8(by_hub) ^ 0xffff) << i;
    }
    for (uint64_t m = told; m; m &= m - 1) join_clocks(&hub, &hub, &s->row[SEMAPHORES + __builtin_ctzll(m)].fullest);
    for (uint32_t m = mask; m; m &= m - 1) join_clocks(&hub, &hub, &s->row[__builtin_ctz(m)].fullest);
    for (uint32_t m = mask; m; m &= m - 1) s->row[__builtin_ctz(m)].fullest = hub;
    s->row[HUB].fullest = hub;
    memset(s->knows, HUB, sizeof s->knows);
    s->lost |= mask;
}

/* Any record, to be refused or not. */
RARE uint8_t *feed(State *s, uint8_t *o, uint32_t kind, uint32_t task, uint32_t on) {
    uint32_t refused = refusal(s, kind, task, on);
    if (refused) return put_refused(s, o, refused);
    uint32_t number = ++s->count;
    if (kind == LOST) return mark(s, on), o;
    if (kind <= BUMP) {
        uint8_t t[2] = {(uint8_t)('0' + task / 10), (uint8_t)('0' + task % 10)}, v[2] = {(uint8_t)('0' + on / 10), (uint8_t)('0' + on % 10)};
        Line l = {.task = task, .on = on, .task_more = task > 9, .on_more = on > 9};
        l.who = EIGHT(' ', 't', 'a', 's', 'k', '=', t[!l.task_more], t[1]);
        l.what = EIGHT(' ', 'o', 'n', '=', v[!l.on_more], v[1], 0, 0);
        return judge(s, o, kind, &l, number, seven(number));
    }
    if (kind <= SET) {
        if (kind <= GIVE && s->owned) own(s, kind, task, on);
        return hand_over(s, kind, task, on, number), o;
    }
    Row *mine = &s->row[task], *other = &s->row[on];
    cells(&mine->arrived)[task] = cell(number);
    cells(&mine->fullest)[task] = cell(number);
    switch (kind) {
    case START:
        s->live |= 1u << on, s->unseen &= ~(1u << on);
        *other = *mine;
        break;
    case JOIN:
        s->live &= ~(1u << on);
        if (cells(&other->arrived)[on] != NOTHING) join_clocks(&mine->arrived, &mine->arrived, &other->arrived);
        if (cells(&other->fullest)[on] != NOTHING || s->lost >> on & 1) join_clocks(&mine->fullest, &mine->fullest, &other->fullest);
        break;
    case FRESH: clear(s->latest[on], 3); break;
    case OWNED: s->owned = 1, s->single = !s->lost; break;
    }
    return o;
}

/* ---- lines */

/* 1 to 5 digits with no needless leading zero; null where there are none. A sixth digit is left for the caller to stumble over. */
static const uint8_t *number(const uint8_t *p, uint32_t *v) {
    uint32_t n = (uint32_t)*p - '0';
    if (n > 9) return 0;
    p++;
    if (n) {
        for (int more = 4; more && (uint32_t)*p - '0' <= 9; more--) n = n * 10 + (*p++ - '0');
    }
    *v = n;
    return p;
}

/* The line at p: the place of its end, which is an LF or `end`; null where it is not of the text form. */
static const uint8_t *record(const uint8_t *p, const uint8_t *end, uint32_t *kind, uint32_t *task, uint32_t *on) {
    const Op *op = op_of(p);
    if (eight(p) != op->word) return 0;
    *kind = op->kind;
    *task = 0;
    p += op->kind == LOST ? 7 : 6 + op->longer;
    if (p[0] != ' ' || four(p + 1) != FOUR('t', 'a', 's', 'k')) return 0;
    if (op->kind == LOST) {
        if (p[5] != 's' || p[6] != '=') return 0;
        p = number(p + 7, on);
    } else {
        if (p[5] != '=' || !(p = number(p + 6, task))) return 0;
        if (four(p) != FOUR(' ', 'o', 'n', '=')) return 0;
        p = number(p + 4, on);
    }
    if (!p || p > end || (p < end && *p != '\n')) return 0;
    return p;
}

/* Any line at p, which is not `end`; answers the place after it. The bytes up to p + 40 can be read. */
RARE const uint8_t *line(State *s, const uint8_t *p, const uint8_t *end, uint8_t **out) {
    uint32_t kind, task, on;
    const uint8_t *q = record(p, end, &kind, &task, &on);
    if (q) {
        *out = feed(s, *out, kind, task, on);
        return q + 1;
    }
    q = memchr(p, '\n', (size_t)(end - p));
    *out = put_refused(s, *out, 1);
    return (q ? q : end) + 1;
}

/* Where the next line begins, if the tables have the one at p: its LF is among eight bytes. */
INLINE const uint8_t *after_line(const uint8_t *p) {
    __m128i lf = _mm_cmpeq_epi8(_mm_loadl_epi64((const __m128i *)(p + 16)), _mm_set1_epi8('\n'));
    return p + 17 + __builtin_ctz((uint32_t)_mm_movemask_epi8(lf) | 0x80);
}

/* The lines that begin before `stop`, as long as the report ends before `full`, if that is said; answers the place after them. The bytes up to
 * stop + 64 can be read. */
INLINE const uint8_t *lines(State *s, const uint8_t *p, const uint8_t *stop, const uint8_t *end, uint8_t **out, const uint8_t *full) {
    uint8_t *o = *out;
    uint32_t count = s->count, hundred = count / 100 * 100;
    uint64_t hundred_word = seven(hundred);
    const Op *op = op_of(p);
    const uint8_t *next = after_line(p);
    while (p < stop && (!full || o < full)) {
        const Op *next_op = op_of(next);
        const uint8_t *next_but_one = after_line(next);
        const uint8_t *q = p + 6 + op->longer;
        Line l;
        l.who = eight(q);
        const Task *task = &tasks[TASK_SLOT(two(q + 6))];
        l.task_more = l.who >> 60 & 1; /* a blank comes after it, or a digit */
        q += 7 + l.task_more;
        l.what = eight(q);
        const On *on = &ons[ON_SLOT(two(q + 4))];
        l.on_more = l.what >> 44 & 1; /* an LF, or a digit */
        l.task = (uint32_t)task->number;
        l.on = (uint32_t)on->number;
        uint64_t wrong = (eight(p) ^ op->word) | (l.who ^ task->word) | ((l.what & on->bytes) ^ on->word);
        if (wrong || !(s->live >> l.task & 1) || count >= LIMIT) {
            s->count = count;
            *out = o;
            p = line(s, p, end, out);
            o = *out;
            count = s->count;
            if (p < stop) op = op_of(p), next = after_line(p);
            continue;
        }
        if (op->kind <= BUMP) {
            count++;
            if (count - hundred >= 100) hundred = count / 100 * 100, hundred_word = seven(hundred);
            __builtin_prefetch(o + 1024, 1);
            o = judge(s, o, op->kind, &l, count, hundred_word + units[count - hundred]);
        } else if (op->kind <= SET && l.on < 32 && (!s->owned || op->kind > GIVE || own(s, op->kind, l.task, l.on))) {
            hand_over(s, op->kind, l.task, l.on, ++count);
        } else {
            s->count = count;
            o = feed(s, o, op->kind, l.task, l.on);
            count = s->count;
        }
        p = next, op = next_op, next = next_but_one;
    }
    s->count = count;
    *out = o;
    return p;
}

#ifdef ENTRY

static size_t line_count(const uint8_t *text, size_t len) {
    const __m128i lf = _mm_set1_epi8('\n'), zero = _mm_setzero_si128();
    __m128i sums = zero;
    size_t i = 0;
    for (; len - i >= 64; i += 64) {
        __m128i found = zero;
        for (size_t j = 0; j < 64; j += 16) found = _mm_sub_epi8(found, _mm_cmpeq_epi8(_mm_loadu_si128((const __m128i *)(text + i + j)), lf));
        sums = _mm_add_epi64(sums, _mm_sad_epu8(found, zero));
    }
    size_t n = (size_t)_mm_cvtsi128_si64(_mm_add_epi64(sums, _mm_unpackhi_epi64(sums, sums)));
    for (; i < len; i++) n += text[i] == '\n';
    return n + (len && text[len - 1] != '\n');
}

Totals order_totals; /* of the last report */

uint64_t order_report(const uint8_t *text, size_t text_len, uint8_t *report, size_t report_len) {
    if (report_len / 64 < line_count(text, text_len)) return TOO_SMALL;
    State s;
    fresh(&s);
    const uint8_t *p = text, *end = text + text_len;
    uint8_t *out = report;
    if (text_len >= 64) p = lines(&s, p, end - 63, end, &out, 0);
    /* What is left is read from a copy, after which there is room. A long line may have been the last. */
    uint8_t rest[128] = {0};
    if (p < end) {
        size_t left = (size_t)(end - p);
        memcpy(rest, p, left);
        for (p = rest, end = rest + left; p < end;) p = line(&s, p, end, &out);
    }
    order_totals = s.totals;
    return (uint64_t)(out - report);
}

#else

#include <stdio.h>
#include <unistd.h>

#define BLOCK (32 * 1024)

static uint8_t in[BLOCK + 64], out[2 * BLOCK];
static const uint8_t *const full = out + sizeof out - 64;

static void flush(uint8_t *to) {
    for (uint8_t *p = out; p < to;) {
        ssize_t n = write(1, p, (size_t)(to - p));
        if (n <= 0) _exit(1);
        p += n;
    }
}

static uint8_t *room(uint8_t *o) {
    if (o < full) return o;
    flush(o);
    return out;
}

static void say(const Totals *totals) {
    for (int v = 0; v < 64; v++) {
        const uint32_t *t = totals->of[v];
        if (t[CLEAR] | t[RACE] | t[DOUBT]) fprintf(stderr, "var=%d clear=%u race=%u doubt=%u\n", v, t[CLEAR], t[RACE], t[DOUBT]);
    }
    fprintf(stderr, "races=%u skipped=%u\n", totals->anywhere[RACE], totals->skipped);
}

/* With the argument `size` it only says how large its state is; with `totals` it says those too, on standard error. */
int main(int argc, char **argv) {
    static State s;
    if (argc > 1 && !strcmp(argv[1], "size")) return printf("%zu\n", sizeof s), 0;
    fresh(&s);
    size_t held = 0;
    int skipping = 0; /* inside a line that filled the block and is refused already */
    uint8_t *o = out;
    for (;;) {
        ssize_t got = read(0, in + held, BLOCK - held);
        if (got < 0) return 1;
        const uint8_t *p = in, *end = in + held + (size_t)got;
        memset(in + held + (size_t)got, 0, 64); /* so that no number goes on with bytes of an earlier block */
        const uint8_t *stop = got ? memrchr(in, '\n', (size_t)(end - in)) : end;
        if (skipping && stop) {
            p = memchr(p, '\n', (size_t)(end - p));
            p = p ? p + 1 : end;
            skipping = 0;
        }
        for (const uint8_t *last = stop ? stop + (got != 0) : in; p < last;) p = lines(&s, p, last, last, &o, full), o = room(o);
        if (!got) break;
        held = p < end ? (size_t)(end - p) : 0;
        if (skipping) held = 0;
        if (held == BLOCK) {
            o = room(put_refused(&s, o, 1));
            skipping = 1, held = 0;
        }
        memmove(in, p, held);
    }
    flush(o);
    if (argc > 1) say(&s.totals);
    return 0;
}

#endif
