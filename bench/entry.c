/* Times an `order_report`: entry FILE SECONDS [REPORT]
 *
 * Linked once with the proved archive, once with the rival. Calls it on the whole file for about that many seconds and prints the median
 * nanoseconds of a call, the lines of the text, the bytes of the report and the peak of the process's memory in KB. Writes the report to the
 * file REPORT if one is named. */
#include <stdio.h>
#include <stdlib.h>
#include <string.h>
#include <sys/resource.h>
#include <time.h>

#include "../include/order.h"

static uint64_t now(void) {
    struct timespec t;
    clock_gettime(CLOCK_PROCESS_CPUTIME_ID, &t);
    return (uint64_t)t.tv_sec * 1000000000u + (uint64_t)t.tv_nsec;
}

static int by_size(const void *a, const void *b) {
    uint64_t x = *(const uint64_t *)a, y = *(const uint64_t *)b;
    return (x > y) - (x < y);
}

static uint8_t *whole(const char *name, size_t *len) {
    FILE *f = fopen(name, "rb");
    if (!f) perror(name), exit(2);
    fseek(f, 0, SEEK_END);
    *len = (size_t)ftell(f);
    rewind(f);
    uint8_t *text = malloc(*len + 1);
    if (!text || fread(text, 1, *len, f) != *len) perror(name), exit(2);
    fclose(f);
    return text;
}

static void save(const char *name, const uint8_t *report, size_t len) {
    FILE *f = fopen(name, "wb");
    if (!f || fwrite(report, 1, len, f) != len || fclose(f)) perror(name), exit(2);
}

int main(int argc, char **argv) {
    if (argc < 3) return fprintf(stderr, "usage: entry FILE SECONDS [REPORT]\n"), 2;
    size_t len, lines = 0;
    uint8_t *text = whole(argv[1], &len);
    for (size_t i = 0; i < len; i++) lines += text[i] == '\n';
    lines += len && text[len - 1] != '\n';
    uint8_t *report = malloc(64 * lines + 1);
    memset(report, '?', 64 * lines + 1); /* so that it is there before the first call; zeros would come with the first touch of each page */

    static uint64_t took[100000];
    size_t calls = 0;
    uint64_t written = 0, began = now(), until = began + (uint64_t)(atof(argv[2]) * 1e9), at = began;
    do {
        written = order_report(text, len, report, 64 * lines);
        uint64_t then = now();
        took[calls++] = then - at;
        at = then;
    } while (at < until && calls < 100000);
    if (written == ORDER_TOO_SMALL) return fprintf(stderr, "entry: refused\n"), 2;
    if (argc > 3) save(argv[3], report, written);

    qsort(took, calls, sizeof *took, by_size);
    struct rusage used;
    getrusage(RUSAGE_SELF, &used);
    printf("%llu %zu %llu %ld\n", (unsigned long long)took[calls / 2], lines, (unsigned long long)written, used.ru_maxrss);
    return 0;
}
