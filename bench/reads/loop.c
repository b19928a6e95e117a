// Answers reads of 64 sectors of a volume over files, in C: for each line of its input it makes the device calls that the program makes for it, straight into the
// reply, and writes that with one call. Where each sector stands it finds in the tables before it begins; it asks for an array of one volume.
// Usage: loop; loop lines COUNT prints as many requests instead, each of 64 sectors that stand one behind another in a data segment: one behind another through
// the volume, and again from its front.
#include "../shelf.h"

enum { VOLUME = 4096, COUNT = 64, LINE = 32, HEAD = 8 };

static struct {
    uint64_t sequence, segment;
    unsigned index;
} sectors[VOLUME];

static struct segment segments[SEGMENTS];
static unsigned segment_count;
// In which of these a read of 64 sectors stands, or none, and from which index on.
static const struct segment *segment_at[VOLUME];

static void load_address(const unsigned char *fact) {
    uint64_t sector = number(fact + 16, 8), sequence = number(fact + 24, 8);
    check(fact[1] == 1 && sector < VOLUME);
    if (sequence < sectors[sector].sequence) return;
    sectors[sector].sequence = sequence;
    sectors[sector].segment = number(fact + 32, 8);
    sectors[sector].index = (unsigned)number(fact + 40, 2);
}

static void load_segment(const unsigned char *fact) {
    check(segment_count < SEGMENTS);
    struct segment *segment = &segments[segment_count++];
    segment->id = number(fact + 8, 8);
    load_places(fact + 32, segment->places);
}

static void load_tables(void) {
    static unsigned char region[REGION], bytes[SECTOR * SEGMENT_SECTORS];
    read_drive(0, region, REGION, 0);
    load_patches(region + UNIT + UNIT * slot_of(region));
    for (unsigned n = 0; n < patch_count; n++)
        for (unsigned i = 0; i < patches[n].count; i++) {
            unsigned facts = facts_in(&patches[n], i);
            read_sectors(&patches[n].segments[i], 0, sectors_for(facts), bytes);
            for (const unsigned char *fact = bytes; fact < bytes + FACT * facts; fact += FACT) {
                check(fact[0] == patches[n].tag);
                if (fact[0] == ADDRESS) load_address(fact);
                if (fact[0] == SEGMENT) load_segment(fact);
            }
        }
}

static const struct segment *find_segment(uint64_t id) {
    unsigned n = 0;
    while (n < segment_count && segments[n].id != id) n++;
    check(n < segment_count);
    return &segments[n];
}

static void find_reads(void) {
    for (unsigned lba = 0; lba + COUNT <= VOLUME; lba++) {
        unsigned n = 0;
        while (n < COUNT && sectors[lba + n].segment == sectors[lba].segment && sectors[lba + n].index == sectors[lba].index + n) n++;
        if (n == COUNT) segment_at[lba] = find_segment(sectors[lba].segment);
    }
}

static void print_lines(long count) {
    unsigned lbas[VOLUME / COUNT], some = 0;
    for (unsigned lba = 0; lba < VOLUME; lba += COUNT)
        if (segment_at[lba] != NULL) lbas[some++] = lba;
    check(some > 0);
    for (long n = 0; n < count; n++) printf("read a %u %d\n", lbas[n % some], COUNT);
}

static char input[1 << 16];
static size_t have, at;

static int byte(void) {
    if (at == have) {
        ssize_t n = read(0, input, sizeof input);
        check(n >= 0);
        have = (size_t)n;
        at = 0;
    }
    return at < have ? (unsigned char)input[at++] : -1;
}

static void answer(const char *line) {
    static unsigned char reply[HEAD + COUNT * SECTOR] = "data 64\n";
    char *end;
    check(memcmp(line, "read a ", 7) == 0);
    unsigned long lba = strtoul(line + 7, &end, 10);
    check(strcmp(end, " 64") == 0 && lba < VOLUME && segment_at[lba] != NULL);
    read_sectors(segment_at[lba], sectors[lba].index, COUNT, reply + HEAD);
    check(write(1, reply, sizeof reply) == sizeof reply);
}

int main(int argc, char **argv) {
    open_shelf();
    load_tables();
    find_reads();
    if (argc == 3) {
        check(strcmp(argv[1], "lines") == 0);
        print_lines(atol(argv[2]));
        return 0;
    }
    check(argc == 1);
    char line[LINE];
    for (;;) {
        size_t length = 0;
        int c;
        while ((c = byte()) >= 0 && c != '\n' && length < sizeof line - 1) line[length++] = (char)c;
        if (c < 0) return 0;
        line[length] = 0;
        answer(line);
    }
}
