/* Times `order_settle`: settle RECORDING [ROUNDS]
 *
 * A recording of `generate` as a list: `order_settle` over it, with the empty set, tasks 0 to 7 and all tasks as home, against one pass of
 * `order_feed` over the same list, by turns. Times are medians of processor time. With 0 rounds there is one pass and one call,
 * with tasks 0 to 7, for callgrind. */
#include "list.h"

static uint32_t said[3];

static uint64_t time_feed(void) {
    static struct order_state state;
    uint32_t refused = 0;
    uint64_t began = now();
    order_state_begin(&state);
    for (size_t i = 0; i < len; i++) {
        order_state_feed(&state, (uint8_t)list[i][0], list[i][1], list[i][2], said);
        refused += said[0] == ORDER_REFUSED;
    }
    uint64_t took = now() - began;
    if (refused) fprintf(stderr, "settle: %u records are refused\n", (unsigned)refused), exit(2);
    return took;
}

static uint64_t time_settle(uint16_t home) {
    uint32_t answer[2], expected = home ? ORDER_YES : ORDER_NO;
    uint64_t began = now();
    order_settle(list, len, home, answer);
    uint64_t took = now() - began;
    /* The two must say the same of the access that ends the list. Of a Doubt some tasks may have yes or no. */
    if (said[0] == ORDER_ACCEPTED) expected = ORDER_NEITHER;
    if (said[0] == ORDER_CLEAR) expected = ORDER_YES;
    if (said[0] == ORDER_RACE) expected = ORDER_NO;
    if (said[0] == ORDER_DOUBT && home && home != UINT16_MAX && answer[1] == ORDER_NO) expected = ORDER_NO;
    if (answer[0] || answer[1] != expected) fprintf(stderr, "settle: feeding differs\n"), exit(2);
    return took;
}

int main(int argc, char **argv) {
    static const uint16_t homes[] = {0, 0x00ff, UINT16_MAX};
    enum { HOMES = sizeof homes / sizeof homes[0] };
    static uint64_t fed[ROUNDS], settled[HOMES][ROUNDS];
    size_t rounds = read_list("settle", argc, argv);
    /* The list ends in an access. */
    while (len && list[len - 1][0] != ORDER_READ && list[len - 1][0] != ORDER_WRITE && list[len - 1][0] != ORDER_BUMP) len--;

    if (rounds == 0) {
        time_feed();
        time_settle(homes[1]);
        return printf("%zu records\n", len), 0;
    }
    for (size_t round = 0; round < rounds; round++) {
        fed[round] = time_feed();
        for (size_t i = 0; i < HOMES; i++) settled[i][round] = time_settle(homes[i]);
    }
    double by_feed = median(fed, rounds) / (double)len;
    printf("%-22s %9s %9s %9s\n", "home", "settle ns", "feed ns", "ratio");
    for (size_t i = 0; i < HOMES; i++) {
        double by_settle = median(settled[i], rounds) / (double)len;
        printf("%-22x %9.1f %9.1f %9.2f\n", (unsigned)homes[i], by_settle, by_feed, by_settle / by_feed);
    }
    return 0;
}
