// P and Q of a stripe's seven shards: their sum, and the sum of two to the i times the i-th in GF(256) with x^8 + x^4 + x^3 + x^2 + 1. By isa-l where HAS_ISAL
// is given, and else eight bytes at a time.
#include <stdint.h>
#include <string.h>

enum { PARITY_SHARDS = 7, SHARD_BYTES = 4096 };

#ifdef HAS_ISAL
#include <isa-l/raid.h>

// The shards, each at a multiple of 32 bytes, and behind them P and Q.
static void encode(unsigned char *shards[PARITY_SHARDS + 2]) { pq_gen(PARITY_SHARDS + 2, SHARD_BYTES, (void **)shards); }
#else
static uint64_t doubled(uint64_t bytes) {
    uint64_t high = bytes & 0x8080808080808080u;
    return (bytes ^ high) << 1 ^ (high >> 7) * 0x1d;
}

// The shards, and behind them P and Q.
static void encode(unsigned char *shards[PARITY_SHARDS + 2]) {
    for (int at = 0; at < SHARD_BYTES; at += 8) {
        uint64_t p = 0, q = 0;
        for (int i = PARITY_SHARDS - 1; i >= 0; i--) {
            uint64_t bytes;
            memcpy(&bytes, shards[i] + at, 8);
            p ^= bytes;
            q = doubled(q) ^ bytes;
        }
        memcpy(shards[PARITY_SHARDS] + at, &p, 8);
        memcpy(shards[PARITY_SHARDS + 1] + at, &q, 8);
    }
}
#endif
