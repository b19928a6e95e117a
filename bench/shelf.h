// The shelf of the current folder, for the peers in C of bench/reads and bench/takeovers: its files, the boot record in force, and the patches that it names, as
// docs/FORMAT.md spells them. It asks for an array with all its devices, and ends the program with 1 where a call fails or bytes aren't as expected.
#define _GNU_SOURCE
#include <fcntl.h>
#include <stdint.h>
#include <stdio.h>
#include <stdlib.h>
#include <string.h>
#include <unistd.h>

enum {
    SECTOR = 512,
    WRITE_UNIT = 4096,
    UNIT = 65536,
    SHARD_SECTORS = 8,
    DATA_SHARDS = 7,
    SHARDS = 9,
    SEGMENT_SECTORS = 840,
    REGION = 3 * UNIT,
    HEADER = 88,
    GENERATION = 16,
    FACT = 64,
    PAGE_FACTS = 8,
    SEGMENT_FACTS = 6720,
    SEGMENTS = 600,
    DRIVES = 24,
    NVRAM = 2,
    LOG_SLOTS = 64,
    SLOTS_START = 4096,
    SLOT_BYTES = 33280,
    NVRAM_BYTES = 2134016
};

enum { ADDRESS = 3, SEGMENT = 4 };

struct place {
    unsigned slot, unit;
};

struct segment {
    uint64_t id;
    struct place places[SHARDS];
};

struct patch {
    unsigned tag, facts, count;
    const struct segment *segments;
};

static unsigned drives, units;
static int drive_files[DRIVES], nvram_files[NVRAM];
static struct patch patches[SEGMENTS];
static struct segment patch_segments[SEGMENTS];
static unsigned patch_count;

static void check(int good) {
    if (!good) exit(1);
}

// A number of so many bytes, the greatest first.
static uint64_t number(const unsigned char *at, int bytes) {
    uint64_t value = 0;
    for (int i = 0; i < bytes; i++) value = value << 8 | at[i];
    return value;
}

static int open_file(const char *path) {
    int file = open(path, O_RDWR);
    check(file >= 0);
    return file;
}

static void open_shelf(void) {
    char path[32];
    FILE *text = fopen("shelf/shelf.txt", "r");
    check(text != NULL && fscanf(text, "%u %u", &drives, &units) == 2 && drives <= DRIVES);
    fclose(text);
    for (unsigned n = 0; n < drives; n++) {
        sprintf(path, "shelf/drive%02u", n);
        drive_files[n] = open_file(path);
    }
    for (unsigned n = 0; n < NVRAM; n++) {
        sprintf(path, "shelf/nvram%u", n);
        nvram_files[n] = open_file(path);
    }
}

static void read_drive(unsigned drive, void *into, size_t size, off_t at) {
    check(pread(drive_files[drive], into, size, at) == (ssize_t)size);
}

// The slot of the record that a drive's boot region has in force: 0 for A, 1 for B.
static int slot_of(const unsigned char *region) {
    int is_open[2] = {region[0] == 1, region[SECTOR] == 1};
    check(is_open[0] || is_open[1]);
    if (is_open[0] && is_open[1]) return number(region + UNIT + GENERATION, 8) < number(region + 2 * UNIT + GENERATION, 8);
    return is_open[1];
}

static const unsigned char *load_places(const unsigned char *at, struct place *places) {
    for (int shard = 0; shard < SHARDS; shard++) {
        places[shard].slot = at[0];
        places[shard].unit = (unsigned)number(at + 1, 2);
        check(places[shard].slot < drives && places[shard].unit < units);
        at += 3;
    }
    return at;
}

// The patches that a record names.
static void load_patches(const unsigned char *record) {
    const unsigned char *at = record + HEADER;
    unsigned used = 0;
    check(memcmp(record, "PURARRAY", 8) == 0);
    patch_count = (unsigned)number(record + 80, 2);
    check(patch_count <= SEGMENTS);
    for (unsigned n = 0; n < patch_count; n++) {
        struct patch *patch = &patches[n];
        patch->tag = at[0];
        patch->facts = (unsigned)number(at + 1, 4);
        patch->count = (unsigned)number(at + 5, 2);
        patch->segments = patch_segments + used;
        at += 7;
        check(used + patch->count <= SEGMENTS && patch->count == (patch->facts + SEGMENT_FACTS - 1) / SEGMENT_FACTS);
        for (unsigned i = 0; i < patch->count; i++) {
            struct segment *segment = &patch_segments[used++];
            segment->id = number(at, 8);
            at = load_places(at + 8, segment->places);
        }
    }
    check(at == record + number(record + 84, 4));
}

// The facts in a patch's segment of that index.
static unsigned facts_in(const struct patch *patch, unsigned index) {
    unsigned left = patch->facts - SEGMENT_FACTS * index;
    return left < SEGMENT_FACTS ? left : SEGMENT_FACTS;
}

// As many sectors have them.
static unsigned sectors_for(unsigned facts) { return (facts + PAGE_FACTS - 1) / PAGE_FACTS; }

static off_t place_of(struct place place, unsigned write_unit) { return (off_t)UNIT * place.unit + WRITE_UNIT * write_unit; }

// Reads a run of a segment's sectors, from that index on, as the program does: with a call for each shard of each stripe that it touches.
static void read_sectors(const struct segment *segment, unsigned index, unsigned count, unsigned char *into) {
    while (count > 0) {
        unsigned within = index % SHARD_SECTORS, shard = index / SHARD_SECTORS % DATA_SHARDS, stripe = index / SHARD_SECTORS / DATA_SHARDS;
        unsigned part = SHARD_SECTORS - within < count ? SHARD_SECTORS - within : count;
        struct place place = segment->places[shard];
        read_drive(place.slot, into, SECTOR * part, place_of(place, stripe + 1) + SECTOR * within);
        into += SECTOR * part;
        index += part;
        count -= part;
    }
}
