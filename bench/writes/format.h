// The bytes that work.c writes, as docs/FORMAT.md spells them. Each function fills the whole of what it spells.
#include <stdint.h>
#include <string.h>

enum {
    UNIT = 65536,
    WRITE_UNIT = 4096,
    BOOT_UNITS = 3,
    SHARDS = 9,
    DATA_SHARDS = 7,
    STRIPES = 15,
    SEGMENT_SECTORS = 840,
    FACT = 64,
    SEGMENT_FACTS = 6720,
    PAGE_FACTS = 8,
    TAGS = 5,
    PATCHES = 600,
    NAME = 24
};

enum { OBJECT = 1, ADDRESS = 3, SEGMENT = 4, ELISION = 5 };

struct place {
    uint16_t slot, unit;
};

struct segment {
    uint64_t id, sequence;
    unsigned placed;
    struct place places[SHARDS];
};

// Of one segment, as each patch is that work.c makes.
struct patch {
    unsigned tag, facts;
    struct segment segment;
};

struct object {
    uint64_t id, medium, sequence;
    unsigned sectors;
    char name[NAME + 1];
};

// Its segment is 0 where the sector is staged.
struct address {
    uint64_t medium, sequence, segment;
    unsigned sector, index;
};

struct elision {
    uint64_t first, last, sequence;
    unsigned table;
};

struct numbers {
    uint64_t object, medium, segment, patch_segment, sequence;
};

static void put2(unsigned char *at, uint64_t value) {
    uint16_t bytes = __builtin_bswap16((uint16_t)value);
    memcpy(at, &bytes, 2);
}

static void put4(unsigned char *at, uint64_t value) {
    uint32_t bytes = __builtin_bswap32((uint32_t)value);
    memcpy(at, &bytes, 4);
}

static void put8(unsigned char *at, uint64_t value) {
    value = __builtin_bswap64(value);
    memcpy(at, &value, 8);
}

static unsigned char *put_places(unsigned char *at, const struct segment *segment) {
    for (int shard = 0; shard < SHARDS; shard++, at += 3) {
        at[0] = (unsigned char)segment->places[shard].slot;
        put2(at + 1, segment->places[shard].unit);
    }
    return at;
}

// What all facts have in front of their value.
static void spell_key(unsigned char *at, unsigned tag, uint64_t id, uint64_t second, uint64_t sequence) {
    memset(at, 0, FACT);
    at[0] = (unsigned char)tag;
    put8(at + 8, id);
    put8(at + 16, second);
    put8(at + 24, sequence);
}

static void spell_object(unsigned char *at, const struct object *object) {
    spell_key(at, OBJECT, object->id, 0, object->sequence);
    at[1] = 1;
    at[2] = (unsigned char)strlen(object->name);
    put4(at + 4, object->sectors);
    put8(at + 32, object->medium);
    memcpy(at + 40, object->name, at[2]);
}

static void spell_address(unsigned char *at, const struct address *address) {
    spell_key(at, ADDRESS, address->medium, address->sector, address->sequence);
    at[1] = 1;
    put8(at + 32, address->segment);
    put2(at + 40, address->index);
}

static void spell_segment(unsigned char *at, const struct segment *segment) {
    spell_key(at, SEGMENT, segment->id, 0, segment->sequence);
    put2(put_places(at + 32, segment), segment->placed);
}

static void spell_elision(unsigned char *at, const struct elision *elision) {
    spell_key(at, ELISION, elision->first, elision->table, elision->sequence);
    put8(at + 32, elision->last);
}

// The first sector of a slot of the log, of a create of so many sectors, or of a write of so many from `lba` on.
static void spell_head(unsigned char *at, uint64_t number, int is_write, const char *name, uint64_t sectors, uint64_t lba) {
    memset(at, 0, 512);
    memcpy(at, "PURNVLOG", 8);
    put8(at + 8, number);
    at[16] = is_write ? 2 : 1;
    at[17] = (unsigned char)strlen(name);
    put4(at + 20, sectors);
    put8(at + 24, lba);
    memcpy(at + 40, name, at[17]);
}

// The write unit in front of a segment's unit: of data where there is no patch.
static void spell_header(unsigned char *at, const struct segment *segment, const struct patch *patch, unsigned shard, uint64_t generation) {
    memset(at, 0, WRITE_UNIT);
    memcpy(at, "PURSEGMT", 8);
    put8(at + 8, segment->id);
    put8(at + 16, generation);
    at[24] = patch == NULL ? 1 : 2;
    at[25] = (unsigned char)shard;
    put2(at + 26, segment->placed);
    if (patch != NULL) {
        at[28] = (unsigned char)patch->tag;
        put2(at + 34, 1);
        put4(at + 36, patch->facts);
    }
    put_places(at + 40, segment);
}

// A boot record's front, of a shelf all of whose devices are members. The patches follow on its 88 bytes.
static void spell_front(unsigned char *at, unsigned drives, unsigned units, uint64_t generation, const struct numbers *ids, uint64_t flushed,
                        unsigned patches) {
    memset(at, 0, UNIT);
    memcpy(at, "PURARRAY", 8);
    put4(at + 8, 1);
    put2(at + 12, drives);
    put2(at + 14, units);
    put8(at + 16, generation);
    put4(at + 24, (1u << drives) - 1);
    at[28] = 3;
    put8(at + 32, ids->object);
    put8(at + 40, ids->medium);
    put8(at + 48, ids->segment);
    put8(at + 56, ids->patch_segment);
    put8(at + 64, ids->sequence);
    put8(at + 72, flushed);
    put2(at + 80, patches);
}

static unsigned char *put_patch(unsigned char *at, const struct patch *patch) {
    at[0] = (unsigned char)patch->tag;
    put4(at + 1, patch->facts);
    put2(at + 5, 1);
    put8(at + 7, patch->segment.id);
    return put_places(at + 15, &patch->segment);
}
