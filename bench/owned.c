/* Times the takes of a garage with owned semaphores, with and without skipping: owned RECORDING [ROUNDS]
 *
 * A recording of `generate` with SAME as a list, whose first record is `owned`. One pass of `order_feed` over it, and one over the same list
 * without that record, in which no take is skipped, by turns; both must give the same verdicts. The number of skipped takes must be that
 * of a count made here. Times are medians of processor time; a take alone is one that is skipped, or the same of the other pass, between two
 * readings of a clock. With 0 rounds there is one pass of each, for callgrind: what is within `take_skipped` are the takes that are skipped,
 * and within `take_walked` the same takes of the other pass. */
#include "list.h"

static uint8_t skips[MOST];
static size_t takes, repeats;

/* Which takes are of a semaphore that the same task gave last. */
static void find_skips(void) {
    uint32_t giver[32] = {0};
    for (size_t i = 0; i < len; i++) {
        uint32_t kind = list[i][0], task = list[i][1] + 1, on = list[i][2];
        if (kind == ORDER_GIVE) giver[on] = task;
        if (kind != ORDER_TAKE) continue;
        skips[i] = giver[on] == task;
        takes++, repeats += skips[i];
    }
}

static struct order_state state;
static uint8_t verdicts[2][MOST];

static void refused(size_t i) {
    fprintf(stderr, "owned: record %zu is refused\n", i + 1);
    exit(2);
}

static uint64_t time_feed(size_t from) {
    uint32_t said[3];
    uint64_t began = now();
    order_state_begin(&state);
    for (size_t i = from; i < len; i++) {
        order_state_feed(&state, (uint8_t)list[i][0], list[i][1], list[i][2], said);
        if (said[0] == ORDER_REFUSED) refused(i);
        verdicts[from][i] = (uint8_t)said[0];
    }
    return now() - began;
}

/* A clock that is read in few nanoseconds; the processor ends what it has begun before it reads it. */
static uint64_t wall(void) {
    struct timespec t;
    clock_gettime(CLOCK_MONOTONIC, &t);
    return (uint64_t)t.tv_sec * 1000000000u + (uint64_t)t.tv_nsec;
}

/* The takes of `skips`, each alone, without what the clock itself takes. */
static uint64_t time_takes(size_t from) {
    uint32_t said[3];
    uint64_t took = 0, clock = 0;
    order_state_begin(&state);
    for (size_t i = from; i < len; i++) {
        uint64_t first = 0, began = 0;
        if (skips[i]) first = wall(), began = wall();
        order_state_feed(&state, (uint8_t)list[i][0], list[i][1], list[i][2], said);
        if (skips[i]) took += wall() - began, clock += began - first;
    }
    return took > clock ? took - clock : 0;
}

/* Two functions, so that callgrind tells them apart. The words keep the compiler from making one of them, or a jump of the call. */
__attribute__((noinline)) static void take_skipped(const uint32_t record[3], uint32_t said[3]) {
    order_state_feed(&state, ORDER_TAKE, record[1], record[2], said);
    __asm__ volatile("# skipped");
}

__attribute__((noinline)) static void take_walked(const uint32_t record[3], uint32_t said[3]) {
    order_state_feed(&state, ORDER_TAKE, record[1], record[2], said);
    __asm__ volatile("# walked");
}

static void one_pass(size_t from) {
    uint32_t said[3];
    order_state_begin(&state);
    for (size_t i = from; i < len; i++) {
        if (!skips[i]) order_state_feed(&state, (uint8_t)list[i][0], list[i][1], list[i][2], said);
        else if (from == 0) take_skipped(list[i], said);
        else take_walked(list[i], said);
        if (said[0] == ORDER_REFUSED) refused(i);
    }
}

static void hold(uint32_t count, size_t expected) {
    if (count != expected) fprintf(stderr, "owned: %u takes are skipped, and %zu are expected\n", (unsigned)count, expected), exit(2);
}

int main(int argc, char **argv) {
    static uint64_t with[ROUNDS], without[ROUNDS], alone[2][ROUNDS];
    size_t rounds = read_list("owned", argc, argv);
    if (!len || list[0][0] != ORDER_OWNED) return fprintf(stderr, "owned: the recording does not begin with owned\n"), 2;
    find_skips();
    if (rounds == 0) {
        one_pass(0);
        hold(order_state_skipped(&state), repeats);
        one_pass(1);
        hold(order_state_skipped(&state), 0);
        return printf("%zu records, %zu takes, %zu skipped\n", len, takes, repeats), 0;
    }
    time_feed(0), time_feed(1); /* so that no round is the first to touch the memory */
    for (size_t round = 0; round < rounds; round++) {
        with[round] = time_feed(0);
        hold(order_state_skipped(&state), repeats);
        without[round] = time_feed(1);
        hold(order_state_skipped(&state), 0);
        for (size_t from = 0; from < 2; from++) alone[from][round] = time_takes(from);
    }
    if (memcmp(verdicts[0] + 1, verdicts[1] + 1, len - 1) != 0) return fprintf(stderr, "owned: verdicts differ\n"), 2;
    printf("%zu records, %zu takes, %zu skipped\n", len, takes, repeats);
    printf("%-34s %9.1f ns a record %9.1f ns a take alone\n", "with the profile", median(with, rounds) / (double)len,
           median(alone[0], rounds) / (double)repeats);
    printf("%-34s %9.1f ns a record %9.1f ns a take alone\n", "without it, no take skipped", median(without, rounds) / (double)len,
           median(alone[1], rounds) / (double)repeats);
    return 0;
}
