/* The same job once more, unverified, as it is written with speed in mind and before anything is measured: clocks of 32 bits in flat tables, a
 * pointer over the text, no allocation and no library call a line but memchr and memcpy. The rival (rival.c) is what came of measuring. */
#include <stddef.h>
#include <stdint.h>
#include <string.h>

enum { READ, WRITE, TAKE, GIVE, LOOK, SET, START, JOIN, LOST, FRESH, MISS, BUMP, OWNED, KINDS };

typedef struct {
    uint32_t clear[64], race[64], doubt[64], races; /* verdicts of each variable, and the Races anywhere */
} Totals;

/* rows: 16 tasks' next acts, 16 tasks' having acted, 32 semaphores, 32 flags */
typedef struct {
    uint32_t clock[2][96][16];
    uint32_t last[3][64][16]; /* reads, writes, bumps */
    uint8_t phase[16];
    uint32_t count, owned, skipped;
    Totals totals;
    uint8_t holder[32], giver[32]; /* with owned semaphores: a task and one more, 0 for nobody */
} State;

static void join_row(uint32_t *to, const uint32_t *from) {
    for (int i = 0; i < 16; i++)
        if (to[i] < from[i]) to[i] = from[i];
}

static void act(uint32_t (*c)[16], int kind, uint32_t task, uint32_t on, uint32_t number) {
    uint32_t *own = c[task];
    own[task] = number;
    if (kind == TAKE) join_row(own, c[32 + on]);
    if (kind == LOOK) join_row(own, c[64 + on]);
    if (kind == JOIN) join_row(own, c[16 + on]);
    memcpy(c[16 + task], own, sizeof c[0]);
    if (kind == GIVE) join_row(c[32 + on], own);
    if (kind == SET) join_row(c[64 + on], own);
    if (kind == START) join_row(c[on], own);
}

static void fill(uint32_t (*c)[16], uint32_t mask) {
    uint32_t hub[16] = {0};
    for (int t = 0; t < 16; t++)
        if (mask >> t & 1) join_row(hub, c[t]);
    for (int r = 32; r < 96; r++) join_row(hub, c[r]);
    for (int t = 0; t < 16; t++)
        if (mask >> t & 1) memcpy(c[t], hub, sizeof hub), memcpy(c[16 + t], hub, sizeof hub);
    for (int r = 32; r < 96; r++) memcpy(c[r], hub, sizeof hub);
}

static int refusal(const State *s, int kind, uint32_t task, uint32_t on) {
    static const uint32_t series[] = {64, 64, 32, 32, 32, 32, 16, 16, 0, 64, 32, 64, 1};
    if (kind == LOST) {
        if (on == 0 || on > 65535) return 4;
        if (s->count >= 4000000) return 5;
        for (int t = 0; t < 16; t++)
            if ((on >> t & 1) && s->phase[t] != 1) return 9;
        return s->owned ? 15 : 0;
    }
    if (task > 15) return 2;
    if (on >= series[kind]) return 3;
    if (s->count >= 4000000) return 5;
    if (s->phase[task] != 1) return 6;
    if (kind == START && s->phase[on] != 0) return 7;
    if (kind == JOIN && on == task) return 8;
    if (kind == JOIN && s->phase[on] != 1) return 9;
    if (kind == OWNED && s->owned) return 14;
    if (s->owned && kind == TAKE && s->holder[on]) return 16;
    if (s->owned && kind == GIVE && s->holder[on] != task + 1) return 16;
    return 0;
}

/* The lowest task whose latest conflicting access is not known to the task, or -1; its number in *with. */
static int apart(const State *s, int filling, int kind, uint32_t task, uint32_t on, uint32_t *with) {
    const uint32_t *known = s->clock[filling][task];
    for (uint32_t u = 0; u < 16; u++) {
        uint32_t latest = s->last[WRITE][on][u];
        if (kind != READ && s->last[READ][on][u] > latest) latest = s->last[READ][on][u];
        if (kind != BUMP && s->last[2][on][u] > latest) latest = s->last[2][on][u];
        if (u != task && known[u] < latest) return *with = latest, (int)u;
    }
    return -1;
}

static uint8_t *put(uint8_t *o, const char *word) {
    size_t n = strlen(word);
    memcpy(o, word, n);
    return o + n;
}

static uint8_t *put_decimal(uint8_t *o, uint64_t n) {
    uint8_t digits[20];
    int at = 20;
    do digits[--at] = (uint8_t)('0' + n % 10);
    while (n /= 10);
    memcpy(o, digits + at, (size_t)(20 - at));
    return o + (20 - at);
}

static uint8_t *put_seven(uint8_t *o, uint32_t n) {
    for (int i = 6; i >= 0; i--) o[i] = (uint8_t)('0' + n % 10), n /= 10;
    return o + 7;
}

static uint8_t *put_refused(uint8_t *o, uint64_t line, int number) {
    o = put_decimal(put(o, "line="), line);
    o = put_decimal(put(o, " refused="), (uint64_t)number);
    return put(o, "\n");
}

static uint8_t *feed(State *s, uint8_t *o, uint64_t line, int kind, uint32_t task, uint32_t on) {
    int refused = refusal(s, kind, task, on);
    if (refused) return put_refused(o, line, refused);
    uint32_t number = ++s->count, with = 0;
    if (kind <= WRITE || kind == BUMP) {
        const char *verdict = " verdict=clear with=";
        if (apart(s, 1, kind, task, on, &with) >= 0) {
            verdict = " verdict=race with=";
            s->totals.race[on]++;
            s->totals.races++;
        } else if (apart(s, 0, kind, task, on, &with) >= 0) {
            verdict = " verdict=doubt with=";
            s->totals.doubt[on]++;
        } else {
            s->totals.clear[on]++;
        }
        o = put_seven(put(o, "rec="), number);
        o = put_decimal(put(o, " task="), task);
        o = put_decimal(put(o, " var="), on);
        o = put_seven(put(o, verdict), with);
        o = put(o, "\n");
        s->last[kind == BUMP ? 2 : kind][on][task] = number;
    }
    if (kind == LOST) return fill(s->clock[1], on), o;
    if (kind == FRESH)
        for (int a = 0; a < 3; a++) memset(s->last[a][on], 0, sizeof s->last[a][on]);
    if (kind == START) s->phase[on] = 1;
    if (kind == JOIN) s->phase[on] = 2;
    if (kind == OWNED) s->owned = 1;
    if (s->owned && kind == TAKE) {
        s->holder[on] = (uint8_t)(task + 1);
        if (s->giver[on] == task + 1) s->skipped++, kind = MISS; /* it knows all that the semaphore knows */
    }
    if (s->owned && kind == GIVE) s->holder[on] = 0, s->giver[on] = (uint8_t)(task + 1);
    act(s->clock[0], kind, task, on, number);
    act(s->clock[1], kind, task, on, number);
    return o;
}

static const uint8_t *skip(const uint8_t *p, const uint8_t *end, const char *word) {
    for (; *word; word++, p++)
        if (p == end || *p != (uint8_t)*word) return 0;
    return p;
}

static const uint8_t *number(const uint8_t *p, const uint8_t *end, uint32_t *v) {
    const uint8_t *from = p;
    uint32_t n = 0;
    while (p < end && *p >= '0' && *p <= '9' && p - from < 6) n = n * 10 + (*p++ - '0');
    if (p == from || p - from > 5 || (*from == '0' && p - from > 1)) return 0;
    *v = n;
    return p;
}

static int op(const uint8_t *p, size_t n) {
    static const char *const words[] = {"read", "write", "take", "give", "look", "set", "start",
                                        "join", "lost",  "fresh", "miss", "bump", "owned"};
    static const uint8_t lengths[] = {4, 5, 4, 4, 4, 3, 5, 4, 4, 5, 4, 4, 5};
    for (int k = 0; k < KINDS; k++)
        if (n == lengths[k] && p[0] == (uint8_t)words[k][0] && !memcmp(p, words[k], n)) return k;
    return -1;
}

static int record(const uint8_t *p, const uint8_t *end, uint32_t *task, uint32_t *on) {
    if (!(p = skip(p, end, "op="))) return -1;
    const uint8_t *space = memchr(p, ' ', (size_t)(end - p));
    if (!space) return -1;
    int kind = op(p, (size_t)(space - p));
    if (kind < 0) return -1;
    *task = 0;
    if (kind == LOST) {
        if (!(p = skip(space, end, " tasks="))) return -1;
    } else {
        if (!(p = skip(space, end, " task=")) || !(p = number(p, end, task)) || !(p = skip(p, end, " on="))) return -1;
    }
    p = number(p, end, on);
    return p == end ? kind : -1;
}

Totals order_totals; /* of the last report */
uint32_t order_skipped;

uint64_t order_report(const uint8_t *text, size_t text_len, uint8_t *report, size_t report_len) {
    size_t lines = 0;
    for (size_t i = 0; i < text_len; i++) lines += text[i] == '\n';
    lines += text_len && text[text_len - 1] != '\n';
    if (report_len / 64 < lines) return UINT64_MAX;
    State s;
    memset(&s, 0, sizeof s);
    s.phase[0] = 1;
    uint8_t *o = report;
    uint64_t line = 0;
    for (const uint8_t *p = text, *end = text + text_len; p < end;) {
        const uint8_t *lf = memchr(p, '\n', (size_t)(end - p));
        if (!lf) lf = end;
        uint32_t task, on;
        int kind = record(p, lf, &task, &on);
        line++;
        o = kind < 0 ? put_refused(o, line, 1) : feed(&s, o, line, kind, task, on);
        p = lf + 1;
    }
    order_totals = s.totals;
    order_skipped = s.skipped;
    return (uint64_t)(o - report);
}
