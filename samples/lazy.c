/* A host in C that has a recording in memory and asks about each of its accesses with `order_lazy`: which tasks have a pair with it, for
 * which of them a path leads here, and how many records were walked to see that.
 *
 *     tools/archives host
 *     cc -o target/lazy samples/lazy.c target/staticlib/libhost.a && target/lazy */
#include <stdio.h>

#include "../include/order.h"

/* Task 1 loads the free bays of aisle 10 and hands over by semaphore 3 to task 2, which counts cars. Task 0 looks in by itself. */
static const uint32_t morning[][3] = {
    {ORDER_START, 0, 1},  {ORDER_START, 0, 2}, {ORDER_WRITE, 1, 10}, {ORDER_GIVE, 1, 3},  {ORDER_SET, 0, 7},  {ORDER_TAKE, 2, 3},
    {ORDER_WRITE, 2, 10}, {ORDER_SET, 2, 7},   {ORDER_READ, 2, 10},  {ORDER_READ, 0, 10}, {ORDER_LOOK, 0, 7}, {ORDER_READ, 0, 10},
};

static void print_tasks(const char *what, uint64_t mask) {
    printf(", %s", what);
    for (int task = 0; task < 16; task++) {
        if (mask >> task & 1) printf(" %d", task);
    }
    if (!mask) printf(" none");
}

int main(void) {
    for (size_t len = 1; len <= sizeof morning / sizeof morning[0]; len++) {
        const uint32_t *last = morning[len - 1];
        uint64_t answer[4];
        if (last[0] != ORDER_READ && last[0] != ORDER_WRITE && last[0] != ORDER_BUMP) continue;
        order_lazy(morning, len, answer);
        if (answer[0]) return printf("refused: %u\n", (unsigned)answer[0]), 1;
        printf("record %zu by task %u", len, (unsigned)last[1]);
        print_tasks("pairs with", answer[1]);
        print_tasks("in order", answer[2]);
        printf(", walked %u\n", (unsigned)answer[3]);
    }
    return 0;
}
