/* Times read_record of boot_codec beside a copy and a zero scan of 65,536 bytes, turn about in one process, on bytes that stay in
   the cache. The records are written here, from docs/FORMAT.md. Prints a line a record: what, microseconds of one reading, and its
   ratios to the copy and to the scan. Each number is the median of ROUNDS rounds. Ends with 1 where a record is read otherwise. */
#define _POSIX_C_SOURCE 200809L
#include <stddef.h>
#include <stdint.h>
#include <stdio.h>
#include <stdlib.h>
#include <string.h>
#include <time.h>

enum { RECORD_BYTES = 65536, HEADER_BYTES = 88, SHARDS = 9, LISTED = 600, FACTS = 6720, SLOTS = 11, UNITS = 64, ROUNDS = 61, TURNS = 200 };

uint8_t boot_bench_read(const uint8_t bytes[RECORD_BYTES], uint8_t slots, uint16_t units);

static _Alignas(64) uint8_t fresh[RECORD_BYTES], patches[RECORD_BYTES], refused[RECORD_BYTES], copy[RECORD_BYTES];

/* Writes a number of that many bytes, the greatest first, and returns the place after it. */
static uint8_t *put(uint8_t *at, int bytes, uint64_t number) {
    for (int i = 0; i < bytes; i++) at[i] = (uint8_t)(number >> 8 * (bytes - 1 - i));
    return at + bytes;
}

/* A patch of address facts that fill so many segments, on the first nine slots. */
static uint8_t *put_patch(uint8_t *at, int count) {
    at = put(at, 1, 3);
    at = put(at, 4, (uint64_t)count * FACTS);
    at = put(at, 2, count);
    for (int segment = 0; segment < count; segment++) {
        at = put(at, 8, segment);
        for (int shard = 0; shard < SHARDS; shard++) at = put(put(at, 1, shard), 2, 3 + segment % (UNITS - 3));
    }
    return at;
}

/* A record of so many patches, each with so many segments. */
static void make(uint8_t *record, int count, int each) {
    uint8_t *at = record;
    memset(record, 0, RECORD_BYTES);
    memcpy(at, "PURARRAY", 8), at += 8;
    at = put(put(put(at, 4, 1), 2, SLOTS), 2, UNITS);
    at = put(at, 8, 1);
    at = put(put(put(at, 4, (1 << SLOTS) - 1), 1, 3), 3, 0);
    for (int next = 0; next < 5; next++) at = put(at, 8, 1);
    at = put(at, 8, 0);
    at = put(put(at, 2, count), 2, 0);
    uint8_t *lists = record + HEADER_BYTES;
    for (int patch = 0; patch < count; patch++) lists = put_patch(lists, each);
    put(at, 4, (uint64_t)(lists - record));
}

static int scan(const uint8_t *bytes) {
    uint64_t any = 0, eight;
    for (size_t i = 0; i < RECORD_BYTES; i += 8) memcpy(&eight, bytes + i, 8), any |= eight;
    return any != 0;
}

static const uint8_t *record;
static volatile int seen;

static void reading(void) { seen = boot_bench_read(record, SLOTS, UNITS); }
static void copying(void) {
    memcpy(copy, record, RECORD_BYTES);
    __asm__ volatile("" : : "r"(copy) : "memory");
}
static void scanning(void) { seen = scan(record); }

static double seconds(void) {
    struct timespec t;
    clock_gettime(CLOCK_MONOTONIC, &t);
    return t.tv_sec + t.tv_nsec * 1e-9;
}

/* Microseconds of one call. */
static double round_of(void (*f)(void)) {
    double start = seconds();
    for (int turn = 0; turn < TURNS; turn++) f();
    return (seconds() - start) / TURNS * 1e6;
}

static int ascending(const void *a, const void *b) {
    double x = *(const double *)a, y = *(const double *)b;
    return (x > y) - (x < y);
}

static double median(double *xs) {
    qsort(xs, ROUNDS, sizeof *xs, ascending);
    return xs[ROUNDS / 2];
}

static void measure(const char *name, const uint8_t *of, int expected) {
    double ours[ROUNDS], copies[ROUNDS], scans[ROUNDS];
    record = of;
    if (reading(), seen != expected) {
        fprintf(stderr, "%s: read as %d\n", name, seen);
        exit(1);
    }
    round_of(reading), round_of(copying), round_of(scanning);
    for (int r = 0; r < ROUNDS; r++) {
        ours[r] = round_of(reading);
        copies[r] = ours[r] / round_of(copying);
        scans[r] = ours[r] / round_of(scanning);
    }
    printf("%-30s %8.2f us, copy ratio %6.1f, scan ratio %6.1f\n", name, median(ours), median(copies), median(scans));
}

/* As many patches of so many segments each as a record has room for. */
static void measure_patches(int each) {
    char name[64];
    int count = LISTED / each;
    make(patches, count, each);
    snprintf(name, sizeof name, "%d of %d segments", count, each);
    measure(name, patches, 0);
}

int main(void) {
    make(fresh, 0, 0), make(refused, 0, 0);
    refused[RECORD_BYTES - 1] = 1;
    measure("new shelf", fresh, 0);
    for (int each = 1; each <= 12; each++) measure_patches(each);
    measure_patches(LISTED);
    measure("refused at its last byte", refused, 1);
    return 0;
}
