// Runs the program that its words give, asks it for a volume of 4,096 sectors and so many writes of 64 sectors, each once the one before is answered: one
// behind another through the volume, and again from its front. Prints how many nanoseconds the writes took in all, and how many of them those took that
// found the log full.
// Usage: client WRITES PROGRAM [WORD]..
#define _GNU_SOURCE
#include <stdio.h>
#include <stdlib.h>
#include <string.h>
#include <sys/wait.h>
#include <time.h>
#include <unistd.h>

enum { SECTORS = 4096, COUNT = 64, DATA = COUNT * 512, SLOTS = 64, LINE = 32 };

static int to[2], from[2];

static void check(int good) {
    if (!good) exit(1);
}

static void ask(const char *bytes, size_t count) {
    while (count > 0) {
        ssize_t n = write(to[1], bytes, count);
        check(n > 0);
        bytes += n;
        count -= (size_t)n;
    }
    char reply[3];
    for (size_t got = 0; got < sizeof reply;) {
        ssize_t n = read(from[0], reply + got, sizeof reply - got);
        check(n > 0);
        got += (size_t)n;
    }
    check(memcmp(reply, "ok\n", 3) == 0);
}

static long long now(void) {
    struct timespec t;
    clock_gettime(CLOCK_MONOTONIC, &t);
    return t.tv_sec * 1000000000LL + t.tv_nsec;
}

int main(int argc, char **argv) {
    check(argc > 2 && pipe(to) == 0 && pipe(from) == 0);
    long writes = atol(argv[1]);
    pid_t program = fork();
    check(program >= 0);
    if (program == 0) {
        dup2(to[0], 0);
        dup2(from[1], 1);
        close(to[1]);
        close(from[0]);
        execv(argv[2], argv + 2);
        _exit(127);
    }
    close(to[0]);
    close(from[1]);
    // The line of a write ends where its data begins.
    static char request[LINE + DATA];
    char line[LINE];
    int length = sprintf(line, "create a %d\n", SECTORS);
    ask(line, (size_t)length);
    memset(request + LINE, 7, DATA);
    long long all = 0, full = 0;
    for (long n = 0; n < writes; n++) {
        length = sprintf(line, "write a %ld %d\n", n * COUNT % SECTORS, COUNT);
        char *start = request + LINE - length;
        memcpy(start, line, (size_t)length);
        long long before = now();
        ask(start, (size_t)length + DATA);
        long long took = now() - before;
        all += took;
        // The create has the first slot.
        if ((n + 1) % SLOTS == 0) full += took;
    }
    printf("%lld %lld\n", all, full);
    close(to[1]);
    int status;
    check(waitpid(program, &status, 0) == program && WIFEXITED(status) && WEXITSTATUS(status) == 0);
    return 0;
}
