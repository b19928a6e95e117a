// Logged requests over files, in C: for each request of its input it makes the device calls of a trace, as loop.c does, but the bytes that it writes are made
// of the request, as docs/FORMAT.md spells them: those that the program writes. It asks for one volume that is made first, and writes.
//   a write       its head and its sectors are put into a slot's image, which is written; then its sectors are staged, and its addresses merged into the
//                 sorted ones
//   a checkpoint  of each sector the newest address is taken, elisions are made of the data segments that no address names any more, the staged sectors are
//                 copied into the stripes of new segments, in the order in which they were staged, P and Q computed, and headers spelled; the facts of the new
//                 patches are spelled into stripes in the same way, and then the record, with the patches of all checkpoints
// It doesn't choose units, for the trace says where each segment stands. Which segments are named it counts, by a flat table of the volume's sectors, and
// searches no patch. It keeps the facts of patches, but nothing that would find them again, since it answers no reads. Its numbers are those behind the
// first opening of a new array, and it judges neither room nor names beyond the volume's. The formats have no checksums, so it makes none. A trace with other
// calls than these ends it with 1.
// Usage: work TRACE. It opens nothing but that file and those of ./shelf.
#include "calls.h"
#include "format.h"
#include "parity.h"

enum {
    STRIPE_SECTORS = 56,
    LOG_SLOTS = 64,
    STAGED = LOG_SLOTS * SLOT_SECTORS,
    VOLUME = 1048576,
    DATA_SEGMENTS = (STAGED + SEGMENT_SECTORS - 1) / SEGMENT_SECTORS,
    SEGMENTS = 65536,
    ELIDED = 1024
};

// What a segment is made of: the staged sectors of a data segment, or the facts of a patch.
struct new_segment {
    struct segment *segment;
    const struct patch *patch;
};

// The array in memory.
static unsigned drives, units;
static uint64_t generation = 2, flushed;
static struct numbers ids = {1, 1, 1, 1, 1};
static struct object volume;
static int is_new;
static unsigned logged, staged_count, address_count;
static unsigned char staged[STAGED][SECTOR];
static struct address addresses[STAGED];
static struct patch patches[TAGS + 1][PATCHES];
static unsigned patch_counts[TAGS + 1];

// In which segment each sector stands that was placed, of each segment how many these are, the segments that aren't elided, and the ranges of those
// that are.
static uint64_t segment_of[VOLUME];
static unsigned named[SEGMENTS];
static uint64_t visible[SEGMENTS];
static struct elision ranges[SEGMENTS];
static unsigned visible_count, range_count;

// A checkpoint's plan. The newest addresses are the patch that is kept.
static struct address *newest;
static unsigned newest_count, placed, segment_count, elision_count;
static uint16_t order[STAGED];
static struct segment segments[DATA_SEGMENTS];
static struct elision elisions[ELIDED];

static _Alignas(64) unsigned char shards[SHARDS][STRIPES * WRITE_UNIT];

static void expect(int good) {
    if (good) return;
    fprintf(stderr, "work: the trace has other calls, or the input other requests\n");
    exit(1);
}

static void open_shelf(void) {
    FILE *text = fopen("shelf/shelf.txt", "r");
    check(text != NULL && fscanf(text, "%u %u", &drives, &units) == 2 && drives <= DRIVES);
    fclose(text);
    open_files();
}

static int is_before(const struct address *one, const struct address *other) {
    return one->sector != other->sector ? one->sector < other->sector : one->sequence < other->sequence;
}

// From behind, so that each moves once.
static void merge_addresses(const struct address *run, unsigned left) {
    unsigned old = address_count, to = old + left;
    address_count = to;
    while (left > 0) {
        if (old > 0 && is_before(&run[left - 1], &addresses[old - 1]))
            addresses[--to] = addresses[--old];
        else
            addresses[--to] = run[--left];
    }
}

static void write_volume(const struct request *request, const unsigned char *sectors) {
    struct address run[SLOT_SECTORS];
    for (unsigned n = 0; n < request->sectors; n++)
        run[n] = (struct address){.medium = volume.medium, .sequence = ids.sequence++, .sector = (unsigned)request->lba + n, .index = staged_count + n};
    memcpy(staged[staged_count], sectors, SECTOR * request->sectors);
    staged_count += (unsigned)request->sectors;
    merge_addresses(run, (unsigned)request->sectors);
}

static void create(const struct request *request) {
    expect(volume.sectors == 0 && sscanf(request->line, "create %24s %u", volume.name, &volume.sectors) == 2 && volume.sectors <= VOLUME);
    volume.id = ids.object++;
    volume.medium = ids.medium++;
    volume.sequence = ids.sequence++;
    is_new = 1;
}

static void judge(const struct request *request) {
    expect(strcmp(request->name, volume.name) == 0 && request->lba + request->sectors <= volume.sectors && staged_count + request->sectors <= STAGED);
}

// Appends a request to the log: its slot's image and a gate on both devices, each synced.
static void append(const struct request *request, unsigned char *slot) {
    static const unsigned char open_gate = 1;
    int is_write = request->sectors > 0;
    if (is_write)
        judge(request);
    else
        create(request);
    spell_head(slot, flushed + logged + 1, is_write, volume.name, is_write ? request->sectors : volume.sectors, is_write ? request->lba : 0);
    while (next_call()->what != 0) {
        const struct call *call = next_call();
        int is_image = call->at >= FIRST;
        expect(call->device >= DRIVES && (call->what == 's' || call->size == (is_image ? SECTOR + SECTOR * request->sectors : 1)));
        make_call(is_image ? slot : &open_gate);
    }
    logged++;
    if (is_write) write_volume(request, slot + SECTOR);
}

// Of each sector the newest address, which stands last.
static void take_newest(void) {
    newest = malloc(address_count * sizeof *newest + 1);
    check(newest != NULL);
    newest_count = 0;
    for (unsigned n = 0; n < address_count; n++)
        if (n + 1 == address_count || addresses[n].sector != addresses[n + 1].sector) newest[newest_count++] = addresses[n];
}

// Takes an id among the elided ones, of which those that touch are one range. Gives its range.
static struct elision elided_with(uint64_t id) {
    unsigned n = range_count;
    while (n > 0 && ranges[n - 1].first > id) n--;
    if (n > 0 && ranges[n - 1].last + 1 == id) {
        ranges[--n].last = id;
    } else {
        memmove(&ranges[n + 1], &ranges[n], (range_count++ - n) * sizeof *ranges);
        ranges[n] = (struct elision){.first = id, .last = id, .table = SEGMENT};
    }
    if (n + 1 < range_count && ranges[n + 1].first == id + 1) {
        ranges[n].last = ranges[n + 1].last;
        memmove(&ranges[n + 1], &ranges[n + 2], (--range_count - n - 1) * sizeof *ranges);
    }
    return ranges[n];
}

// Makes the elision of a segment. Ids ascend, so that the one before has the same first id where another one has it.
static void elide_segment(uint64_t id) {
    struct elision elision = elided_with(id);
    elision.sequence = ids.sequence++;
    if (elision_count > 0 && elisions[elision_count - 1].first == elision.first) elision_count--;
    elisions[elision_count++] = elision;
}

// Elides the segments that no address names any more.
static void elide(void) {
    unsigned left = 0, elided = 0;
    for (unsigned n = 0; n < newest_count; n++) named[segment_of[newest[n].sector]]--;
    elision_count = 0;
    for (unsigned n = 0; n < visible_count; n++) {
        uint64_t id = visible[n];
        if (named[id] > 0 || elided == ELIDED) {
            visible[left++] = id;
        } else {
            elide_segment(id);
            elided++;
        }
    }
    visible_count = left;
}

// Gives each staged sector that an address names its place, in the order of staging.
static void place(void) {
    static unsigned places[STAGED];
    static unsigned char flags[STAGED];
    memset(flags, 0, staged_count);
    for (unsigned n = 0; n < newest_count; n++) flags[newest[n].index] = 1;
    placed = 0;
    for (unsigned n = 0; n < staged_count; n++) {
        places[n] = placed;
        if (flags[n]) order[placed++] = (uint16_t)n;
    }
    for (unsigned n = 0; n < newest_count; n++) {
        unsigned at = places[newest[n].index];
        newest[n].segment = ids.segment + at / SEGMENT_SECTORS;
        newest[n].index = at % SEGMENT_SECTORS;
        segment_of[newest[n].sector] = newest[n].segment;
        named[newest[n].segment]++;
    }
}

static void make_segments(void) {
    segment_count = (placed + SEGMENT_SECTORS - 1) / SEGMENT_SECTORS;
    expect(ids.segment + segment_count < SEGMENTS);
    for (unsigned n = 0; n < segment_count; n++) {
        unsigned left = placed - SEGMENT_SECTORS * n;
        segments[n] = (struct segment){.id = ids.segment, .sequence = ids.sequence++, .placed = left < SEGMENT_SECTORS ? left : SEGMENT_SECTORS};
        visible[visible_count++] = ids.segment++;
    }
}

static void put_fact(unsigned char *to, unsigned tag, unsigned n) {
    if (tag == ADDRESS)
        spell_address(to, &newest[n]);
    else if (tag == OBJECT)
        spell_object(to, &volume);
    else if (tag == SEGMENT)
        spell_segment(to, &segments[n]);
    else
        spell_elision(to, &elisions[n]);
}

static void put_facts(unsigned char *to, const struct patch *patch, unsigned page) {
    for (unsigned n = PAGE_FACTS * page; n < PAGE_FACTS * (page + 1); n++, to += FACT) {
        if (n < patch->facts)
            put_fact(to, patch->tag, n);
        else
            memset(to, 0, FACT);
    }
}

static void put_sector(unsigned char *to, const struct new_segment *new, unsigned index) {
    if (index >= new->segment->placed)
        memset(to, 0, SECTOR);
    else if (new->patch != NULL)
        put_facts(to, new->patch, index);
    else
        memcpy(to, staged[order[SEGMENT_SECTORS * (new->segment - segments) + index]], SECTOR);
}

// Fills a stripe, where each shard of the segment lies in one piece.
static void fill_stripe(const struct new_segment *new, unsigned stripe) {
    unsigned char *parts[SHARDS];
    for (unsigned shard = 0; shard < SHARDS; shard++) parts[shard] = shards[shard] + WRITE_UNIT * stripe;
    for (unsigned n = 0; n < STRIPE_SECTORS; n++) put_sector(parts[n / 8] + SECTOR * (n % 8), new, STRIPE_SECTORS * stripe + n);
    encode(parts);
}

// Writes a segment's stripes, on the units that the trace has for them.
static void write_stripes(const struct new_segment *new) {
    unsigned stripes = (new->segment->placed + STRIPE_SECTORS - 1) / STRIPE_SECTORS;
    for (unsigned stripe = 0; stripe < stripes; stripe++) fill_stripe(new, stripe);
    for (unsigned shard = 0; shard < SHARDS; shard++) {
        const struct call *call = next_call();
        expect(call->what == 'w' && call->device < DRIVES && call->at % UNIT == WRITE_UNIT && call->size == WRITE_UNIT * stripes);
        new->segment->places[shard] = (struct place){call->device, (uint16_t)(call->at / UNIT)};
        make_call(shards[shard]);
    }
}

static int is_at(struct place place, const struct call *call) { return place.slot == call->device && (off_t)UNIT * place.unit == call->at; }

// Writes the header that belongs where the next call writes.
static void write_header(const struct new_segment *new, unsigned count) {
    static unsigned char header[WRITE_UNIT];
    const struct call *call = next_call();
    expect(call->what == 'w' && call->device < DRIVES && call->size == WRITE_UNIT);
    for (unsigned n = 0; n < count; n++)
        for (unsigned shard = 0; shard < SHARDS; shard++)
            if (is_at(new[n].segment->places[shard], call)) {
                spell_header(header, new[n].segment, new[n].patch, shard, generation);
                make_call(header);
                return;
            }
    expect(0);
}

static void sync_drives(void) {
    expect(next_call()->what == 's');
    while (next_call()->what == 's') make_call(NULL);
}

// Writes segments under two rounds of syncs, of their stripes and of their headers.
static void write_segments(const struct new_segment *new, unsigned count) {
    if (count == 0) return;
    for (unsigned n = 0; n < count; n++) write_stripes(&new[n]);
    sync_drives();
    for (unsigned n = 0; n < SHARDS * count; n++) write_header(new, count);
    sync_drives();
}

static void write_data(void) {
    struct new_segment new[DATA_SEGMENTS];
    for (unsigned n = 0; n < segment_count; n++) new[n] = (struct new_segment){&segments[n], NULL};
    write_segments(new, segment_count);
}

static unsigned facts_of(unsigned tag) {
    if (tag == OBJECT) return is_new ? 1 : 0;
    if (tag == ADDRESS) return newest_count;
    if (tag == SEGMENT) return segment_count;
    return tag == ELISION ? elision_count : 0;
}

// A patch of each table that has new facts.
static void write_patches(void) {
    struct new_segment new[TAGS];
    unsigned some = 0;
    for (unsigned tag = 1; tag <= TAGS; tag++) {
        unsigned facts = facts_of(tag);
        if (facts == 0) continue;
        expect(facts <= SEGMENT_FACTS && patch_counts[tag] < PATCHES);
        struct patch *patch = &patches[tag][patch_counts[tag]++];
        *patch = (struct patch){.tag = tag, .facts = facts, .segment = {.id = ids.patch_segment++, .placed = (facts + PAGE_FACTS - 1) / PAGE_FACTS}};
        new[some++] = (struct new_segment){&patch->segment, patch};
    }
    write_segments(new, some);
}

static void spell_record(unsigned char *record) {
    unsigned all = 0;
    for (unsigned tag = 1; tag <= TAGS; tag++) all += patch_counts[tag];
    spell_front(record, drives, units, generation, &ids, flushed, all);
    unsigned char *to = record + 88;
    expect(all <= PATCHES);
    for (unsigned tag = 1; tag <= TAGS; tag++)
        for (unsigned n = 0; n < patch_counts[tag]; n++) to = put_patch(to, &patches[tag][n]);
    put4(record + 84, (uint64_t)(to - record));
}

// The gates that are written before the record are closed, and those behind it opened.
static void store_record(void) {
    static unsigned char record[UNIT], gate[SECTOR];
    spell_record(record);
    gate[0] = 0;
    while (next_call()->device < DRIVES) {
        const struct call *call = next_call();
        int is_record = call->what == 'w' && call->size == UNIT;
        expect(call->what != 0 && (call->what != 'w' || (call->at < BOOT_UNITS * UNIT && (is_record || call->size == SECTOR))));
        if (is_record) gate[0] = 1;
        make_call(is_record ? record : gate);
    }
}

static void clear_log(void) {
    static const unsigned char gates[LOG_SLOTS];
    for (;;) {
        const struct call *call = next_call();
        if (call->what == 'w' && call->at >= FIRST) break;
        expect(call->device >= DRIVES && (call->what == 's' || call->size == LOG_SLOTS));
        make_call(gates);
    }
    logged = staged_count = address_count = 0;
    is_new = 0;
}

static void checkpoint(void) {
    take_newest();
    elide();
    place();
    make_segments();
    write_data();
    write_patches();
    generation++;
    flushed += logged;
    store_record();
    clear_log();
}

int main(int argc, char **argv) {
    static unsigned char slot[SECTOR + SLOT_SECTORS * SECTOR];
    struct request request;
    check(argc == 2);
    load(argv[1]);
    open_shelf();
    while (take_request(&request, slot + SECTOR)) {
        if (next_call()->device < DRIVES && next_call()->what != 0) checkpoint();
        append(&request, slot);
        reply();
    }
    return 0;
}
