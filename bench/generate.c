/* Writes a recording to standard output: generate SEED RECORDS TASKS [NOISE [PLAIN [SAME [AT]]]]
 *
 * The same words give the same bytes. Half of the records are accesses, one in fifty is a loss mark, the rest are hand-overs; tasks are
 * started early and some are joined late. NOISE lines in 1,000 (none if not given) are bent: wrong numbers, words, bytes or length; PLAIN
 * records in 1,000 (none if not given) are a fresh, a miss or a bump.
 *
 * With SAME it is a garage with owned semaphores: `owned` comes first, or after AT records of the usual kind, and there are no marks after
 * it. A task takes a semaphore, accesses variables and gives it back, one section in seven has a second within it; nearly half of the
 * records are accesses. SAME in 1,000 takes are of a semaphore that the same task gave last. Without the `owned` it is as good a recording,
 * with the same takes. */
#include <stdint.h>
#include <stdio.h>
#include <stdlib.h>

static uint64_t seed;

/* splitmix64 */
static uint64_t draw(void) {
    uint64_t z = seed += 0x9e3779b97f4a7c15u;
    z = (z ^ z >> 30) * 0xbf58476d1ce4e5b9u;
    z = (z ^ z >> 27) * 0x94d049bb133111ebu;
    return z ^ z >> 31;
}

static unsigned below(unsigned n) { return (unsigned)(draw() % n); }

static unsigned live[16], lives = 1, started = 1;

static unsigned any_live(void) { return live[below(lives)]; }

static void act(const char *word, unsigned task, unsigned on) { printf("op=%s task=%u on=%u\n", word, task, on); }

static void mark(void) {
    unsigned mask = 1u << any_live();
    for (unsigned i = 0; i < lives; i++)
        if (below(4) == 0) mask |= 1u << live[i];
    printf("op=lost tasks=%u\n", mask);
}

static void start(void) {
    act("start", any_live(), started);
    live[lives++] = started++;
}

static void join(void) {
    unsigned at = 1 + below(lives - 1), ended = live[at];
    live[at] = live[--lives];
    act("join", any_live(), ended);
}

static void hand_over(void) {
    static const char *const words[] = {"take", "give", "look", "set"};
    act(words[below(4)], any_live(), below(32));
}

static void plain_act(void) {
    static const char *const words[] = {"fresh", "miss", "bump"};
    act(words[below(3)], any_live(), below(32));
}

static void bent(void) {
    static const char *const lines[] = {
        "op=read task=16 on=1", "op=write task=0 on=64",     "op=take task=0 on=32",     "op=set task=0 on=99999", "op=lost tasks=0",
        "op=lost tasks=65536",  "op=lost tasks=65535",       "op=start task=0 on=0",     "op=join task=0 on=0",    "op=join task=0 on=15",
        "op=start task=0 on=16", "op=read task=00 on=1",     "op=read task=0 on=01",     "op=read task=0 on=",     "op=read task= on=1",
        "op=read  task=0 on=1", "op=read task=0 on=1 ",      "op=read task=0 on=100000", "",                       "op=",
        "op=reads task=0 on=1", "op=rea task=0 on=1",        "op=lost task=0 on=1",      "op=read tasks=1",        "op=read task=0 on=1\r",
        "op=read task=15 on=1", "xp=read task=0 on=1",       "op=write",                 "op=lost tasks=1 ",       "op=give task=0 on=0x1",
        "op=read task=0 on=-1", "op=look task=99999 on=99999"};
    if (below(8) == 0) {
        for (unsigned i = below(90); i > 0; i--) putchar((int)below(256));
        putchar('\n');
    } else {
        puts(lines[below(sizeof lines / sizeof *lines)]);
    }
}

/* ---- owned semaphores */

static unsigned holder[32], giver[32];   /* a task and one more, 0 for nobody */
static unsigned held[16][2], depth[16]; /* the semaphores that a task holds */
static unsigned takes, repeats;         /* how many of the takes are of a semaphore that the same task gave last */

/* A free semaphore that the task gave last, or one that it did not; 32 where there is none. */
static unsigned free_semaphore(unsigned task, int own) {
    unsigned first = below(32);
    for (unsigned i = 0; i < 32; i++) {
        unsigned s = (first + i) % 32;
        if (!holder[s] && (giver[s] == task + 1) == own) return s;
    }
    return 32;
}

/* Where there was none to take again, one more of the next ones is. */
static void take_free(unsigned task, unsigned same) {
    int own = repeats * 1000.0 < same * (double)takes || below(1000) < same;
    unsigned s = free_semaphore(task, own);
    if (s == 32) s = free_semaphore(task, !own);
    if (s == 32) return act("miss", task, 0);
    takes++, repeats += giver[s] == task + 1;
    holder[s] = task + 1;
    held[task][depth[task]++] = s;
    act("take", task, s);
}

static void give_back(unsigned task) {
    unsigned at = below(4) ? depth[task] - 1 : 0, s = held[task][at];
    held[task][at] = held[task][--depth[task]];
    holder[s] = 0;
    giver[s] = task + 1;
    act("give", task, s);
}

static void owned_act(unsigned same) {
    unsigned task = any_live();
    if (below(20) == 0) act(below(2) ? "look" : "set", task, below(32));
    else if (below(100) < (depth[task] ? 58 : 12)) act(below(5) < 3 ? "read" : "write", task, below(64));
    else if (depth[task] == 0 || (depth[task] == 1 && below(6) == 0)) take_free(task, same);
    else give_back(task);
}

/* What may be refused there. */
static void stray(void) {
    switch (below(4)) {
    case 0: return mark();
    case 1: return act("owned", any_live(), below(3) / 2);
    default: return hand_over();
    }
}

int main(int argc, char **argv) {
    if (argc < 4) return fprintf(stderr, "usage: generate SEED RECORDS TASKS [NOISE [PLAIN [SAME [AT]]]]\n"), 2;
    seed = strtoull(argv[1], 0, 10);
    unsigned records = (unsigned)atoi(argv[2]), tasks = (unsigned)atoi(argv[3]), noise = argc > 4 ? (unsigned)atoi(argv[4]) : 0;
    unsigned plain = argc > 5 ? (unsigned)atoi(argv[5]) : 0, same = argc > 6 ? (unsigned)atoi(argv[6]) : 0;
    unsigned at = argc > 7 ? (unsigned)atoi(argv[7]) : argc > 6 ? 0 : UINT32_MAX;
    if (tasks < 1 || tasks > 16) return fprintf(stderr, "generate: 1 to 16 tasks\n"), 2;
    for (unsigned i = 0; i < records; i++) {
        int owned = i >= at;
        if (i == at) {
            act("owned", at ? any_live() : 0, 0);
            continue;
        }
        if (noise && below(1000) < noise) bent();
        if (owned && noise && below(1000) < noise) stray();
        if (started < tasks && below(8) == 0) start();
        else if (lives > tasks / 2 + 1 && i > records - records / 10 && below(64) == 0) join();
        else if (!owned && below(50) == 0) mark();
        else if (plain && below(1000) < plain) plain_act();
        else if (owned) owned_act(same);
        else if (below(100) < 51) act(below(5) < 3 ? "read" : "write", any_live(), below(64));
        else hand_over();
    }
    return 0;
}
