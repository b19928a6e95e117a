// What an opening of an array does on its devices, in C, once. It computes nothing, but that it makes a record of the next generation of the one in force.
// Usage: opening WHAT, where WHAT is
//   reads   it reads what an opening must, with the calls that the program makes for it: the boot region of each drive and the open slots of both NVRAM devices,
//           which it keeps, and then the facts of each patch that the record names, into the same memory again and again
//   least   it reads the same, but what a unit has of a patch with one call, and all into the same memory again and again
//   whole   it makes the calls of `least`, each into memory of its own, and keeps it all to the end: its page faults are those of anyone who holds what was
//           read
//   all     as `whole`, but of the NVRAM devices it reads all: what one must that doesn't go by their gates
//   stores  it makes all calls of an opening that finds nothing to mend: it also reads gates once more, syncs, and stores a record
//   told    it reads each patch's headers and facts, looks at their ids and tables, and prints what an opening reads
#include "../shelf.h"

static unsigned char regions[DRIVES][REGION], logs[NVRAM][NVRAM_BYTES];
static unsigned char bytes[SECTOR * SEGMENT_SECTORS], gate[SECTOR];
static unsigned char *record;
static int slot, is_least, is_whole, is_all;

// Where so many bytes are read to: this memory, or for `whole` new memory, which is never given back.
static unsigned char *room_for(size_t size, unsigned char *shared) {
    if (!is_whole) return shared;
    unsigned char *own = malloc(size);
    check(own != NULL);
    return own;
}

// The first one is kept, which has the record.
static void read_regions(void) {
    unsigned char *first = NULL;
    for (unsigned n = 0; n < drives; n++) {
        unsigned char *region = room_for(REGION, regions[is_least ? n > 0 : n]);
        read_drive(n, region, REGION, 0);
        if (n == 0) first = region;
    }
    slot = slot_of(first);
    record = first + UNIT + UNIT * slot;
    load_patches(record);
}

// A head has its kind here and the count of its sectors there; the kind of a write is 2.
enum { HEAD_KIND = 16, HEAD_COUNT = 20, WRITE = 2 };

static void read_log(int n, unsigned char *into, size_t size, off_t at) {
    check(pread(nvram_files[n], into, size, at) == (ssize_t)size);
}

// What a slot has: its head, and behind that of a write the sectors. How many bytes these are.
static size_t read_slot(int n, unsigned char *log, unsigned slot) {
    off_t at = SLOTS_START + (off_t)SLOT_BYTES * slot;
    unsigned char *head = room_for(SECTOR, log + at);
    read_log(n, head, SECTOR, at);
    if (head[HEAD_KIND] != WRITE) return SECTOR;
    size_t size = SECTOR * number(head + HEAD_COUNT, 4);
    read_log(n, room_for(size, log + at + SECTOR), size, at + SECTOR);
    return SECTOR + size;
}

// Of each device the gates, and what the slots have whose gates are open. How many bytes these are.
static size_t read_logs(void) {
    size_t bytes = 0;
    for (int n = 0; n < NVRAM; n++) {
        size_t size = is_all ? NVRAM_BYTES : LOG_SLOTS;
        unsigned char *log = logs[is_least ? 0 : n], *gates = room_for(size, log);
        read_log(n, gates, size, 0);
        bytes += size;
        for (unsigned i = 0; !is_all && i < LOG_SLOTS; i++)
            if (gates[i] == 1) bytes += read_slot(n, log, i);
    }
    return bytes;
}

static void read_patches(void) {
    for (unsigned n = 0; n < patch_count; n++)
        for (unsigned i = 0; i < patches[n].count; i++) read_sectors(&patches[n].segments[i], 0, sectors_for(facts_in(&patches[n], i)), bytes);
}

// What a unit has of the segment is one range: a write unit for each stripe, the last of which may be cut by the end of the facts, or not be there.
static void read_units(const struct segment *segment, unsigned sectors) {
    unsigned stripe_sectors = SHARD_SECTORS * DATA_SHARDS, rest = sectors % stripe_sectors;
    for (unsigned shard = 0; shard < DATA_SHARDS; shard++) {
        unsigned before = SHARD_SECTORS * shard, last = rest <= before ? 0 : rest - before;
        if (last > SHARD_SECTORS) last = SHARD_SECTORS;
        unsigned size = WRITE_UNIT * (sectors / stripe_sectors) + SECTOR * last;
        if (size == 0) return;
        read_drive(segment->places[shard].slot, room_for(size, bytes), size, place_of(segment->places[shard], 1));
    }
}

static void read_patch_units(void) {
    for (unsigned n = 0; n < patch_count; n++)
        for (unsigned i = 0; i < patches[n].count; i++) read_units(&patches[n].segments[i], sectors_for(facts_in(&patches[n], i)));
}

static void sync_logs(void) {
    for (int n = 0; n < NVRAM; n++) check(fdatasync(nvram_files[n]) == 0);
}

static void write_synced(unsigned drive, const void *from, size_t size, off_t at) {
    check(pwrite(drive_files[drive], from, size, at) == (ssize_t)size && fdatasync(drive_files[drive]) == 0);
}

static void put_number(unsigned char *at, uint64_t value) {
    for (int i = 7; i >= 0; i--, value >>= 8) at[i] = (unsigned char)value;
}

static void read_gates(void) {
    for (unsigned n = 0; n < drives; n++) {
        read_drive(n, gate, SECTOR, SECTOR * slot);
        check(gate[0] == 1);
    }
}

// The gate of the other slot is closed, the body written behind it, and the gate opened, each on all drives before the next.
static void store(void) {
    static unsigned char closed_gate[SECTOR], open_gate[SECTOR] = {1};
    int next = 1 - slot;
    put_number(record + GENERATION, number(record + GENERATION, 8) + 1);
    for (unsigned n = 0; n < drives; n++) {
        read_drive(n, gate, SECTOR, SECTOR * next);
        if (gate[0] == 1) write_synced(n, closed_gate, SECTOR, SECTOR * next);
    }
    for (unsigned n = 0; n < drives; n++) write_synced(n, record, UNIT, UNIT + UNIT * next);
    for (unsigned n = 0; n < drives; n++) write_synced(n, open_gate, SECTOR, SECTOR * next);
}

static void look_at(const struct patch *patch, unsigned index) {
    const struct segment *segment = &patch->segments[index];
    unsigned facts = facts_in(patch, index);
    for (unsigned shard = 0; shard < SHARDS; shard++) {
        read_drive(segment->places[shard].slot, bytes, SECTOR, place_of(segment->places[shard], 0));
        check(memcmp(bytes, "PURSEGMT", 8) == 0 && number(bytes + 8, 8) == segment->id);
        check(bytes[24] == 2 && bytes[25] == shard && bytes[28] == patch->tag && number(bytes + 32, 2) == index);
    }
    read_sectors(segment, 0, sectors_for(facts), bytes);
    for (unsigned n = 0; n < facts; n++) check(bytes[FACT * n] == patch->tag);
}

static void tell(void) {
    unsigned segments = 0, facts = 0, sectors = 0;
    for (unsigned n = 0; n < patch_count; n++) {
        for (unsigned i = 0; i < patches[n].count; i++) {
            look_at(&patches[n], i);
            sectors += sectors_for(facts_in(&patches[n], i));
        }
        segments += patches[n].count;
        facts += patches[n].facts;
    }
    printf("an opening reads %u KiB of boot regions, %zu bytes of NVRAM, and %u KiB of patches: %u of them, in %u segments, with %u facts\n",
           drives * REGION / 1024, read_logs(), SECTOR * sectors / 1024, patch_count, segments, facts);
}

int main(int argc, char **argv) {
    check(argc == 2);
    const char *what = argv[1];
    is_least = strcmp(what, "least") == 0;
    is_all = strcmp(what, "all") == 0;
    is_whole = is_all || strcmp(what, "whole") == 0;
    open_shelf();
    read_regions();
    if (strcmp(what, "reads") == 0) {
        read_patches();
        read_logs();
    } else if (is_least || is_whole) {
        read_patch_units();
        read_logs();
    } else if (strcmp(what, "stores") == 0) {
        read_gates();
        read_patches();
        sync_logs();
        read_logs();
        sync_logs();
        store();
    } else {
        check(strcmp(what, "told") == 0);
        tell();
    }
    return 0;
}
