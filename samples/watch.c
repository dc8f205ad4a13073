/* A host in C that keeps one running state, feeds it the records of a deck as they come, and reads the totals at any moment.
 *
 *     tools/archives host
 *     cc -o target/watch samples/watch.c target/staticlib/libhost.a && target/watch */
#include <stdio.h>

#include "../include/order.h"

/* A garage with owned semaphores. The loader, task 0, writes counter 30 under semaphore 3; the detector of task 1 bumps it twice under the same
 * semaphore; that of task 2 bumps it after a wait that ran out, and gives what it does not hold. */
static const uint32_t deck[][3] = {
    {ORDER_START, 0, 1}, {ORDER_START, 0, 2}, {ORDER_OWNED, 0, 0}, {ORDER_TAKE, 0, 3}, {ORDER_WRITE, 0, 30}, {ORDER_GIVE, 0, 3},
    {ORDER_TAKE, 1, 3},  {ORDER_BUMP, 1, 30}, {ORDER_GIVE, 1, 3},  {ORDER_TAKE, 1, 3}, {ORDER_BUMP, 1, 30},  {ORDER_GIVE, 1, 3},
    {ORDER_MISS, 2, 3},  {ORDER_BUMP, 2, 30}, {ORDER_GIVE, 2, 3},
};

static struct order_state state;

static void show_answer(const uint32_t answer[3]) {
    static const char *const verdicts[] = {[ORDER_CLEAR] = "clear", [ORDER_RACE] = "race", [ORDER_DOUBT] = "doubt"};
    if (answer[0] == ORDER_REFUSED) {
        printf("fed: refused, number %u\n", (unsigned)answer[1]);
    } else if (answer[0] != ORDER_ACCEPTED) {
        printf("fed: record %u is %s", (unsigned)answer[1], verdicts[answer[0]]);
        printf(answer[2] ? " with record %u\n" : "\n", (unsigned)answer[2]);
    }
}

static void show_totals(uint32_t variable) {
    uint32_t totals[3];
    if (!order_state_totals(&state, variable, totals)) return;
    printf("totals: variable %u, %u clear, %u race, %u doubt", (unsigned)variable, (unsigned)totals[0], (unsigned)totals[1], (unsigned)totals[2]);
    printf("; a race anywhere: %s; takes skipped: %u\n", order_state_any_race(&state) ? "yes" : "no", (unsigned)order_state_skipped(&state));
}

int main(void) {
    order_state_begin(&state);
    for (size_t i = 0; i < sizeof deck / sizeof deck[0]; i++) {
        uint32_t answer[3];
        order_state_feed(&state, (uint8_t)deck[i][0], deck[i][1], deck[i][2], answer);
        show_answer(answer);
        if (deck[i][0] == ORDER_GIVE) show_totals(30);
    }
    return 0;
}
