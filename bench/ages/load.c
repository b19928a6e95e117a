// Runs the program that its words give over a shelf without volumes, and writes as a load says, each request once the one before is answered. A checkpoint
// stands behind each 64 writes. Prints, for each age that is asked for, in nanoseconds the middle one of its last requests of each kind:
//   AGE write CHECKPOINT read64 read1 first next
// the writes that find room in the log, those that make a checkpoint first, reads of 64 sectors and reads of one. Then it ends the session and begins another
// one, three times, and the load goes on: the writes that make the first checkpoint behind the opening, and those that make the two behind it. So up to an age,
// from the one before on, there is one session; ages are 14 apart at least, since those nine checkpoints count.
// Usage: load LOAD AGE,AGE.. PROGRAM [WORD]..
//   LOAD: sequential, overwriting (4,096 sectors again and again) or random (over what a sequential load takes)
#define _GNU_SOURCE
#include <stdint.h>
#include <stdio.h>
#include <stdlib.h>
#include <string.h>
#include <sys/wait.h>
#include <time.h>
#include <unistd.h>

enum { COUNT = 64, DATA = COUNT * 512, SLOTS = 64, LINE = 40, SAMPLES = 5, READS = 201, OPENINGS = 3, BEHIND = 2, AGES = 16 };

static int to[2], from[2];
static pid_t session;
static uint64_t state = 20261201;
static unsigned char reply[DATA + LINE];

static void check(int good) {
    if (!good) exit(1);
}

static void ask(const char *bytes, size_t count, size_t want, const char *ok) {
    while (count > 0) {
        ssize_t n = write(to[1], bytes, count);
        check(n > 0);
        bytes += n, count -= (size_t)n;
    }
    for (size_t got = 0; got < want;) {
        ssize_t n = read(from[0], reply + got, want - got);
        check(n > 0);
        got += (size_t)n;
    }
    check(memcmp(reply, ok, strlen(ok)) == 0);
}

static long long now(void) {
    struct timespec t;
    clock_gettime(CLOCK_MONOTONIC, &t);
    return t.tv_sec * 1000000000LL + t.tv_nsec;
}

static uint64_t next(uint64_t below) {
    state = state * 6364136223846793005u + 1442695040888963407u;
    return (state >> 33) % below;
}

static int order(const void *a, const void *b) {
    long long x = *(const long long *)a, y = *(const long long *)b;
    return x < y ? -1 : x > y;
}

static void begin(char **words) {
    check(pipe(to) == 0 && pipe(from) == 0);
    session = fork();
    check(session >= 0);
    if (session == 0) {
        dup2(to[0], 0), dup2(from[1], 1);
        close(to[0]), close(to[1]), close(from[0]), close(from[1]);
        execv(words[0], words);
        _exit(127);
    }
    close(to[0]), close(from[1]);
}

static void end(void) {
    int status;
    close(to[1]);
    check(waitpid(session, &status, 0) == session && WIFEXITED(status) && WEXITSTATUS(status) == 0);
    close(from[0]);
}

static long long middle(long long *times, int count) {
    qsort(times, (size_t)count, sizeof *times, order);
    return times[count / 2];
}

static char request[LINE + DATA];

static long long write_one(uint64_t lba) {
    int line = sprintf(request, "write a %llu 64\n", (unsigned long long)lba);
    for (int i = 0; i < COUNT; i++) {
        memset(request + line + 512 * i, (int)(next(255) + 1), 512);
        memcpy(request + line + 512 * i, &state, sizeof state);
    }
    long long start = now();
    ask(request, (size_t)line + DATA, 3, "ok\n");
    return now() - start;
}

static long long read_one(uint64_t lba, unsigned count) {
    int line = sprintf(request, "read a %llu %u\n", (unsigned long long)lba, count);
    char ok[LINE];
    int head = sprintf(ok, "data %u\n", count);
    long long start = now();
    ask(request, (size_t)line, (size_t)head + 512 * count, ok);
    return now() - start;
}

// The load: over so many runs of 64 sectors, and how many were written. A checkpoint is made by each 64th write, for the create takes a slot of the log too.
static uint64_t runs, written, order_of[1 << 16];
static int is_random, checkpoints;

// Writes the next run. Gives how long that took, and whether it made a checkpoint.
static long long write_next(int *makes) {
    uint64_t run = is_random ? next(runs) : written % runs;
    long long spent = write_one(run * COUNT);
    check(written < sizeof order_of / sizeof *order_of);
    order_of[written++] = run;
    *makes = written % SLOTS == 0;
    checkpoints += *makes;
    return spent;
}

// Writes up to an age, and prints the middle ones of its last writes.
static void print_writes(int age) {
    static long long plain[SAMPLES * SLOTS], full[SAMPLES];
    int p = 0, f = 0, makes;
    check(checkpoints + SAMPLES <= age);
    while (checkpoints < age - SAMPLES) write_next(&makes);
    while (checkpoints < age) {
        long long spent = write_next(&makes);
        if (makes)
            full[f++] = spent;
        else
            plain[p++] = spent;
    }
    printf("%d %lld %lld", age, middle(plain, p), middle(full, f));
}

// What stands in the log is read from memory, and what was never written isn't read at all: reads go to what was written before.
static void print_reads(void) {
    static long long many[READS], one[READS];
    uint64_t before = written - SLOTS < runs ? written - SLOTS : runs;
    for (int i = 0; i < READS; i++) {
        uint64_t run = is_random ? order_of[next(written - SLOTS)] : next(before);
        many[i] = read_one(run * COUNT, COUNT);
        one[i] = read_one(run * COUNT + next(COUNT), 1);
    }
    printf(" %lld %lld", middle(many, READS), middle(one, READS));
}

// How long the next write takes that makes a checkpoint.
static long long next_checkpoint(void) {
    int makes;
    for (;;) {
        long long spent = write_next(&makes);
        if (makes) return spent;
    }
}

static void print_openings(char **words) {
    long long first[OPENINGS], behind[OPENINGS * BEHIND];
    for (int n = 0; n < OPENINGS; n++) {
        end();
        begin(words);
        first[n] = next_checkpoint();
        for (int i = 0; i < BEHIND; i++) behind[BEHIND * n + i] = next_checkpoint();
    }
    printf(" %lld %lld\n", middle(first, OPENINGS), middle(behind, OPENINGS * BEHIND));
}

int main(int argc, char **argv) {
    check(argc > 3);
    char *load = argv[1], *ages[AGES];
    int count = 0;
    for (char *age = strtok(argv[2], ","); age != NULL; age = strtok(NULL, ",")) {
        check(count < AGES);
        ages[count++] = age;
    }
    check(count > 0);
    is_random = strcmp(load, "random") == 0;
    runs = strcmp(load, "overwriting") == 0 ? 64 : (uint64_t)SLOTS * (atoi(ages[count - 1]) + OPENINGS * (1 + BEHIND) + 1);
    if (runs > 16384) runs = 16384;
    begin(argv + 3);
    sprintf(request, "create a %llu\n", (unsigned long long)runs * COUNT);
    ask(request, strlen(request), 3, "ok\n");
    for (int n = 0; n < count; n++) {
        print_writes(atoi(ages[n]));
        print_reads();
        print_openings(argv + 3);
        fflush(stdout);
    }
    end();
    return 0;
}
