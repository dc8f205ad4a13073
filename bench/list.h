/* A recording of `generate` as a list of records, and medians of processor time; for settle.c and owned.c. */
#include <stdio.h>
#include <stdlib.h>
#include <string.h>
#include <time.h>

#include "../include/order.h"

enum { MOST = 4000000, ROUNDS = 1000 };

static uint32_t list[MOST][3];
static size_t len;

static void add(const char *line) {
    /* By kind number. */
    static const char *const words[] = {"read", "write", "take", "give", "look", "set", "start",
                                        "join", "lost",  "fresh", "miss", "bump", "owned"};
    char word[8];
    unsigned task = 0, on;
    if (sscanf(line, "op=%7s task=%u on=%u", word, &task, &on) != 3 && sscanf(line, "op=%7s tasks=%u", word, &on) != 2) return;
    for (uint32_t kind = 0; kind < sizeof words / sizeof words[0]; kind++) {
        if (strcmp(word, words[kind]) != 0 || len == MOST) continue;
        list[len][0] = kind, list[len][1] = task, list[len][2] = on;
        len++;
    }
}

/* The arguments RECORDING [ROUNDS]: reads the recording and answers the rounds. */
static size_t read_list(const char *program, int argc, char **argv) {
    size_t rounds = argc > 2 ? (size_t)atoi(argv[2]) : 25;
    FILE *recording = argc > 1 ? fopen(argv[1], "r") : NULL;
    if (!recording || rounds > ROUNDS) fprintf(stderr, "usage: %s RECORDING [ROUNDS] (0 to %d)\n", program, ROUNDS), exit(2);
    char line[80];
    while (fgets(line, sizeof line, recording)) add(line);
    fclose(recording);
    return rounds;
}

static uint64_t now(void) {
    struct timespec t;
    clock_gettime(CLOCK_PROCESS_CPUTIME_ID, &t);
    return (uint64_t)t.tv_sec * 1000000000u + (uint64_t)t.tv_nsec;
}

static int by_size(const void *a, const void *b) {
    uint64_t x = *(const uint64_t *)a, y = *(const uint64_t *)b;
    return (x > y) - (x < y);
}

static double median(uint64_t *took, size_t rounds) {
    qsort(took, rounds, sizeof *took, by_size);
    return (double)took[rounds / 2];
}
