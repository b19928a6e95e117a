// Runs the program that its words give, which has its standard input, and reads through a pipe what it answers, and drops it. Prints how many nanoseconds
// passed from its start to its end, how many from the first bytes of the answers to the last, how many bytes these were, how many page faults the program had
// that read nothing from a disk, and the most KiB of memory that it held.
// Usage: reader PROGRAM [WORD]..
#define _GNU_SOURCE
#include <stdio.h>
#include <stdlib.h>
#include <sys/resource.h>
#include <sys/wait.h>
#include <time.h>
#include <unistd.h>

static void check(int good) {
    if (!good) exit(1);
}

static long long now(void) {
    struct timespec t;
    clock_gettime(CLOCK_MONOTONIC, &t);
    return t.tv_sec * 1000000000LL + t.tv_nsec;
}

int main(int argc, char **argv) {
    int from[2];
    check(argc > 1 && pipe(from) == 0);
    long long start = now(), first = 0, last = 0, bytes = 0;
    pid_t program = fork();
    check(program >= 0);
    if (program == 0) {
        dup2(from[1], 1);
        close(from[0]);
        close(from[1]);
        execv(argv[1], argv + 1);
        _exit(127);
    }
    close(from[1]);
    static char answers[1 << 17];
    for (;;) {
        ssize_t n = read(from[0], answers, sizeof answers);
        check(n >= 0);
        if (n == 0) break;
        last = now();
        if (bytes == 0) first = last;
        bytes += n;
    }
    int status;
    struct rusage used;
    check(wait4(program, &status, 0, &used) == program && WIFEXITED(status) && WEXITSTATUS(status) == 0);
    printf("%lld %lld %lld %ld %ld\n", now() - start, last - first, bytes, used.ru_minflt, used.ru_maxrss);
    return 0;
}
