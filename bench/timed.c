/* Times a program: timed PROGRAM FILE TIMES [ARGUMENT..]
 *
 * Runs PROGRAM that often with FILE as standard input and standard output thrown away. Prints the median nanoseconds of processor time of a
 * run (user and system, with those of the programs that it waited for), the peak of its memory in KB, and the median nanoseconds on the
 * wall. */
#include <fcntl.h>
#include <stdint.h>
#include <stdio.h>
#include <stdlib.h>
#include <sys/resource.h>
#include <sys/wait.h>
#include <time.h>
#include <unistd.h>

static int by_size(const void *a, const void *b) {
    int64_t x = *(const int64_t *)a, y = *(const int64_t *)b;
    return (x > y) - (x < y);
}

static int64_t ns(struct timeval t) { return t.tv_sec * 1000000000ll + t.tv_usec * 1000ll; }

static int64_t now(void) {
    struct timespec t;
    clock_gettime(CLOCK_MONOTONIC, &t);
    return t.tv_sec * 1000000000ll + t.tv_nsec;
}

static void become(char **argv, const char *file) {
    int in = open(file, O_RDONLY), out = open("/dev/null", O_WRONLY);
    if (in < 0 || out < 0) _exit(126);
    dup2(in, 0);
    dup2(out, 1);
    execv(argv[0], argv);
    _exit(127);
}

int main(int argc, char **argv) {
    int times = argc > 3 ? atoi(argv[3]) : 0;
    if (times < 1 || times > 1000) return fprintf(stderr, "usage: timed PROGRAM FILE TIMES (1 to 1000) [ARGUMENT..]\n"), 2;
    static int64_t took[1000], passed[1000];
    const char *file = argv[2];
    char **call = argv + 3; /* the program, and its arguments */
    call[0] = argv[1];
    long peak = 0;
    for (int i = 0; i < times; i++) {
        int64_t began = now();
        pid_t child = fork();
        if (child == 0) become(call, file);
        struct rusage used;
        int status;
        if (child < 0 || wait4(child, &status, 0, &used) < 0 || status != 0) return fprintf(stderr, "timed: %s failed\n", call[0]), 2;
        passed[i] = now() - began;
        took[i] = ns(used.ru_utime) + ns(used.ru_stime);
        if (used.ru_maxrss > peak) peak = used.ru_maxrss;
    }
    qsort(took, (size_t)times, sizeof *took, by_size);
    qsort(passed, (size_t)times, sizeof *passed, by_size);
    printf("%lld %ld %lld\n", (long long)took[times / 2], peak, (long long)passed[times / 2]);
    return 0;
}
