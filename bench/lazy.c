/* Times `order_lazy`: lazy [ROUNDS]
 *
 * First a quiet deck and a busy one of 60,000 records: the lazy reckoning of the access that ends the list against one pass of the eager
 * sets over the same list, by turns. Then lists on which a careless way to reckon would be quadratic, at 15,000, 30,000 and 60,000 records:
 * the time a record must not grow. Times are medians of processor time; the lists are the same in each run. */
#include <stdio.h>
#include <stdlib.h>
#include <time.h>

#include "../include/order.h"

enum { MOST = 60000, ROUNDS = 1000, TASKS = 16, VARIABLES = 64, OBJECTS = 32 };

static uint32_t list[MOST][3];
static size_t len;
static uint64_t seed;

/* splitmix64 */
static uint64_t draw(void) {
    uint64_t z = seed += 0x9e3779b97f4a7c15u;
    z = (z ^ z >> 30) * 0xbf58476d1ce4e5b9u;
    z = (z ^ z >> 27) * 0x94d049bb133111ebu;
    return z ^ z >> 31;
}

static uint32_t below(uint32_t n) { return (uint32_t)(draw() % n); }

static void put(uint32_t kind, uint32_t task, uint32_t on) {
    list[len][0] = kind;
    list[len][1] = task;
    list[len][2] = on;
    len++;
}

static void put_starts(void) {
    for (uint32_t task = 1; task < TASKS; task++) put(ORDER_START, 0, task);
}

static uint32_t any_access(void) {
    static const uint32_t kinds[] = {ORDER_READ, ORDER_READ, ORDER_WRITE, ORDER_WRITE, ORDER_BUMP};
    return kinds[below(5)];
}

static uint32_t any_exchange(void) {
    static const uint32_t kinds[] = {ORDER_TAKE, ORDER_GIVE, ORDER_LOOK, ORDER_SET};
    return kinds[below(4)];
}

/* ---- decks */

/* Of twenty records one is by another task than came before: it takes over a variable, nearly always in order. Two are exchanges. */
static void quiet_over(size_t records, uint32_t variables) {
    uint32_t before[VARIABLES] = {0};
    put_starts();
    while (len + 5 < records) {
        uint32_t variable = below(variables), *task = &before[variable], turn = below(20);
        if (turn == 0) {
            uint32_t next = below(TASKS), semaphore = below(OBJECTS);
            put(ORDER_GIVE, *task, semaphore);
            if (below(10)) put(ORDER_TAKE, next, semaphore);
            *task = next;
            put(ORDER_WRITE, next, variable);
        } else if (turn <= 2) {
            put(any_exchange(), *task, below(OBJECTS));
        } else if (below(500) == 0) {
            put(ORDER_LOST, 0, 1u << *task);
        } else {
            put(any_access(), *task, variable);
        }
    }
    while (len < records) put(ORDER_READ, before[0], 0);
}

/* Half accesses by any task, one mark in fifty, the rest hand-overs and now and then a fresh or a miss. */
static void busy_over(size_t records, uint32_t variables) {
    put_starts();
    while (len + 1 < records) {
        uint32_t task = below(TASKS), turn = below(1000);
        if (turn < 500) put(any_access(), task, below(variables));
        else if (turn < 520) put(ORDER_LOST, 0, 1u << task);
        else if (turn < 540) put(ORDER_MISS, task, below(OBJECTS));
        else if (turn == 540) put(ORDER_FRESH, task, below(variables));
        else put(any_exchange(), task, below(OBJECTS));
    }
    put(ORDER_READ, 3, 0);
}

static void quiet(size_t records) { quiet_over(records, VARIABLES); }
static void quiet_one(size_t records) { quiet_over(records, 1); }
static void busy(size_t records) { busy_over(records, VARIABLES); }
static void busy_one(size_t records) { busy_over(records, 1); }

/* ---- lists that a careless way would walk over and over */

static void two_in_turn(size_t records) {
    put_starts();
    while (len + 1 < records) put(ORDER_WRITE, len % 2, 5);
    put(ORDER_READ, 0, 5);
}

static void all_in_turn(size_t records) {
    put_starts();
    while (len + 1 < records) put(ORDER_WRITE, len % TASKS, 5);
    put(ORDER_WRITE, 0, 5);
}

/* Fifteen pairs, all of which walk to the end. */
static void all_walked(size_t records) {
    put_starts();
    for (uint32_t task = 1; task < TASKS; task++) put(ORDER_WRITE, task, 5);
    while (len + 1 < records) put(any_exchange(), 0, below(OBJECTS));
    put(ORDER_WRITE, 0, 5);
}

/* Exchanges of all tasks among themselves, so that what is reached grows. */
static void all_exchanged(size_t records) {
    put_starts();
    for (uint32_t task = 1; task < TASKS; task++) put(ORDER_WRITE, task, 5);
    while (len + 1 < records) put(any_exchange(), below(TASKS), below(OBJECTS));
    put(ORDER_WRITE, 0, 5);
}

/* Own writes, each of which might spare the walk, and none does. */
static void own_writes(size_t records) {
    put_starts();
    for (uint32_t task = 1; task < TASKS; task++) put(ORDER_WRITE, task, 5);
    while (len + 1 < records) put(len % 2 ? ORDER_WRITE : ORDER_GIVE, 0, 5);
    put(ORDER_WRITE, 0, 5);
}

/* Handed round in order, an access in every three records. */
static void handed_round(size_t records) {
    uint32_t task = 0;
    put_starts();
    while (len + 4 <= records) {
        uint32_t next = (task + 1) % TASKS;
        put(ORDER_WRITE, task, 5);
        put(ORDER_GIVE, task, task);
        put(ORDER_TAKE, next, task);
        task = next;
    }
    while (len + 1 < records) put(ORDER_READ, task, 6);
    put(ORDER_WRITE, task, 5);
}

/* Rebuilt after every round of accesses. */
static void rebuilt(size_t records) {
    put_starts();
    while (len + 1 < records) put(len % 4 == 3 ? ORDER_FRESH : any_access(), below(TASKS), 5);
    put(ORDER_WRITE, 0, 5);
}

/* Bumps in turn: no pairs of one another, but each one that a write would have. */
static void bumped(size_t records) {
    put_starts();
    put(ORDER_WRITE, 3, 5);
    while (len + 1 < records) put(len % 16 == 5 ? ORDER_SET : ORDER_BUMP, below(TASKS), 5);
    put(ORDER_BUMP, 0, 5);
}

static void marked(size_t records) {
    put_starts();
    while (len + 1 < records) put(len % 4 ? ORDER_LOST : ORDER_WRITE, below(TASKS), len % 4 ? UINT16_MAX : 5);
    put(ORDER_WRITE, 0, 5);
}

struct list_kind {
    const char *name;
    void (*make)(size_t records);
};

static const struct list_kind decks[] = {
    {"quiet", quiet}, {"quiet, one variable", quiet_one}, {"busy", busy}, {"busy, one variable", busy_one}};

static const struct list_kind worst[] = {
    {"two tasks in turn", two_in_turn}, {"16 tasks in turn", all_in_turn},  {"15 pairs, all walked", all_walked},
    {"all exchanged", all_exchanged},   {"own writes, no use", own_writes}, {"handed round", handed_round},
    {"rebuilt over and over", rebuilt}, {"bumps in turn", bumped},          {"three marks in four", marked},
};

enum { DECKS = sizeof decks / sizeof decks[0], WORST = sizeof worst / sizeof worst[0] };

static void make(const struct list_kind *kind, size_t records) {
    len = 0;
    seed = records;
    kind->make(records);
    if (len != records) fprintf(stderr, "lazy: %s has %zu records\n", kind->name, len), exit(2);
}

/* ---- times */

static uint64_t now(void) {
    struct timespec t;
    clock_gettime(CLOCK_PROCESS_CPUTIME_ID, &t);
    return (uint64_t)t.tv_sec * 1000000000u + (uint64_t)t.tv_nsec;
}

static uint64_t answer[4];

static uint64_t time_lazy(void) {
    uint64_t began = now();
    order_lazy(list, len, answer);
    uint64_t took = now() - began;
    if (answer[0]) fprintf(stderr, "lazy: refused with %u\n", (unsigned)answer[0]), exit(2);
    return took;
}

static uint64_t time_sets(void) {
    static struct order_sets sets;
    uint32_t said[3], refused = 0;
    uint64_t began = now();
    order_sets_state_begin(&sets);
    for (size_t i = 0; i < len; i++) {
        order_sets_state_feed(&sets, (uint8_t)list[i][0], list[i][1], list[i][2], said);
        refused += said[0] == ORDER_REFUSED;
    }
    uint64_t took = now() - began;
    /* The two must say the same of the access that ends the list. */
    if (refused || (said[0] == ORDER_CLEAR) != (answer[1] == answer[2])) fprintf(stderr, "lazy: the sets differ\n"), exit(2);
    return took;
}

static int by_size(const void *a, const void *b) {
    uint64_t x = *(const uint64_t *)a, y = *(const uint64_t *)b;
    return (x > y) - (x < y);
}

/* Nanoseconds a record. */
static double median(uint64_t *took, size_t rounds) {
    qsort(took, rounds, sizeof *took, by_size);
    return (double)took[rounds / 2] / (double)len;
}

int main(int argc, char **argv) {
    size_t rounds = argc > 1 ? (size_t)atoi(argv[1]) : 25;
    if (rounds < 1 || rounds > ROUNDS) return fprintf(stderr, "usage: lazy [ROUNDS] (1 to %d)\n", ROUNDS), 2;
    static uint64_t lazy[ROUNDS], sets[ROUNDS];

    printf("%-22s %9s %9s %9s %7s %7s %9s\n", "deck", "lazy ns", "sets ns", "ratio", "pairs", "paths", "walked");
    for (size_t i = 0; i < DECKS; i++) {
        make(&decks[i], MOST);
        for (size_t round = 0; round < rounds; round++) {
            lazy[round] = time_lazy();
            sets[round] = time_sets();
        }
        double by_lazy = median(lazy, rounds), by_sets = median(sets, rounds);
        printf("%-22s %9.1f %9.1f %9.2f %7x %7x %9llu\n", decks[i].name, by_lazy, by_sets, by_lazy / by_sets, (unsigned)answer[1],
               (unsigned)answer[2], (unsigned long long)answer[3]);
    }

    static const size_t sizes[] = {MOST / 4, MOST / 2, MOST};
    enum { SIZES = sizeof sizes / sizeof sizes[0] };
    printf("\n%-22s %9s %9s %9s %7s %7s %9s\n", "list, ns a record", "15,000", "30,000", "60,000", "pairs", "paths", "walked");
    for (size_t i = 0; i < WORST; i++) {
        printf("%-22s", worst[i].name);
        for (size_t size = 0; size < SIZES; size++) {
            make(&worst[i], sizes[size]);
            for (size_t round = 0; round < rounds; round++) lazy[round] = time_lazy();
            printf(" %9.1f", median(lazy, rounds));
        }
        printf(" %7x %7x %9llu\n", (unsigned)answer[1], (unsigned)answer[2], (unsigned long long)answer[3]);
    }
    return 0;
}
