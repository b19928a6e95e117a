/* Measures parity72's encode and recover beside isa-l, turn about in one process, on seven shards of 4096 bytes that stay in the
   cache. Prints a table, a line a measurement: what, its GB/s of data, the GB/s of isa-l's, and the ratio of the two. Each number is
   the best of ROUNDS rounds, of either side alike: what else runs on the machine only slows a round. Prints nothing, and ends with
   1, where a result differs. */
#define _POSIX_C_SOURCE 200809L
#include <isa-l/erasure_code.h>
#include <isa-l/raid.h>
#include <stdint.h>
#include <stdio.h>
#include <stdlib.h>
#include <string.h>
#include <time.h>

enum { DATA = 7, ALL = 9, BYTES = 4096, ROUNDS = 101, TURNS = 1000 };
static const double WARM_SECONDS = 0.003;

void parity_bench_encode(const uint8_t shards[DATA][BYTES], uint8_t p[BYTES], uint8_t q[BYTES]);
void parity_bench_recover(uint8_t shards[ALL][BYTES], uint8_t i, uint8_t j);

static _Alignas(64) uint8_t shards[ALL][BYTES], whole[ALL][BYTES], coded[2][BYTES];
static uint8_t tables[32 * DATA * 2];
static uint8_t *data[DATA], *parities[2];
static void *array[ALL];

static void ours_encode(void) { parity_bench_encode((const uint8_t(*)[BYTES])shards, shards[7], shards[8]); }
static void ours_two_data(void) { parity_bench_recover(shards, 1, 4); }
static void ours_data_and_p(void) { parity_bench_recover(shards, 1, 7); }
static void ours_data_and_q(void) { parity_bench_recover(shards, 1, 8); }
static void theirs_encode(void) { ec_encode_data(BYTES, DATA, 2, tables, data, parities); }
static void theirs_pq(void) { pq_gen(ALL, BYTES, array); }
#ifdef HAS_PQ_GEN_AVX2
int pq_gen_avx2(int vects, int len, void **array);
static void theirs_pq_avx2(void) { pq_gen_avx2(ALL, BYTES, array); }
#endif

static double seconds(void) {
    struct timespec t;
    clock_gettime(CLOCK_MONOTONIC, &t);
    return t.tv_sec + t.tv_nsec * 1e-9;
}

/* isa-l leaves the upper halves of the vector registers in use, and the processor at the clock of its widest instructions: a round
   of either side begins clean, and runs for WARM_SECONDS before its time is taken. */
static double round_of(void (*f)(void)) {
    __asm__ volatile("vzeroupper");
    double warm = seconds();
    while (seconds() - warm < WARM_SECONDS) f();
    double start = seconds();
    for (int turn = 0; turn < TURNS; turn++) f();
    return (double)DATA * BYTES * TURNS / (seconds() - start) / 1e9;
}

static double greater(double x, double y) { return x > y ? x : y; }

static void measure(const char *build, const char *name, void (*ours)(void), void (*theirs)(void)) {
    double mine = 0, other = 0;
    for (int r = 0; r < ROUNDS; r++) {
        mine = greater(mine, round_of(ours));
        other = greater(other, round_of(theirs));
    }
    printf("%-10s %-36s %7.1f %7.1f %7.2f\n", build, name, mine, other, mine / other);
}

static void check(const char *what, int equal) {
    if (equal) return;
    fprintf(stderr, "%s: the results differ\n", what);
    exit(1);
}

int main(int argc, char **argv) {
    const char *build = argc > 1 ? argv[1] : "";
    uint8_t matrix[2 * DATA], power = 1;
    for (int i = 0; i < DATA; i++) {
        matrix[i] = 1;
        matrix[DATA + i] = power;
        power = gf_mul(power, 2);
        data[i] = shards[i];
        for (int k = 0; k < BYTES; k++) shards[i][k] = (uint8_t)(rand() >> 7);
    }
    for (int i = 0; i < ALL; i++) array[i] = shards[i];
    parities[0] = coded[0], parities[1] = coded[1];
    ec_init_tables(DATA, 2, matrix, tables);

    ours_encode(), theirs_encode();
    memcpy(whole, shards, sizeof whole);
    check("encode and ec_encode_data", !memcmp(shards[7], coded, 2 * BYTES));
    check("encode and pq_gen", (theirs_pq(), !memcmp(shards, whole, sizeof whole)));
    for (int i = 0; i < ALL; i++)
        for (int j = 0; j < ALL; j++)
            if (i != j) {
                memset(shards[i], 0xA5, BYTES), memset(shards[j], 0x5A, BYTES);
                parity_bench_recover(shards, i, j);
                check("recover", !memcmp(shards, whole, sizeof whole));
            }

    measure(build, "encode : ec_encode_data", ours_encode, theirs_encode);
    measure(build, "encode : pq_gen", ours_encode, theirs_pq);
#ifdef HAS_PQ_GEN_AVX2
    measure(build, "encode : pq_gen_avx2", ours_encode, theirs_pq_avx2);
#endif
    measure(build, "recover two data : ec_encode_data", ours_two_data, theirs_encode);
    measure(build, "recover data and P : ec_encode_data", ours_data_and_p, theirs_encode);
    measure(build, "recover data and Q : ec_encode_data", ours_data_and_q, theirs_encode);
    return 0;
}
