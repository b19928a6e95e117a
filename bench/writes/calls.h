// The requests of the input, the device calls of a trace, and the files of ./shelf, for loop.c and work.c. Where a call fails, or a trace isn't one, the
// program ends with 1.
#define _GNU_SOURCE
#include <fcntl.h>
#include <stdint.h>
#include <stdio.h>
#include <stdlib.h>
#include <string.h>
#include <unistd.h>

enum { FIRST = 4096, SECTOR = 512, DRIVES = 24, NVRAM = 2, BLOCK = 65536, SLOT_SECTORS = 64, LINE = 160 };

struct call {
    char what; // 'w', 's', 'r', or 0 where a reply is given
    unsigned char device;
    unsigned size;
    off_t at;
};

// The sectors of a write follow its line; of another request there are none.
struct request {
    char line[LINE], name[64];
    size_t length;
    unsigned long lba, sectors;
};

static char input[1 << 16];
static size_t have, at;
static struct call *calls;
static size_t count, next;
static int files[DRIVES + NVRAM];

static void check(int good) {
    if (!good) exit(1);
}

static int more(void) {
    if (at < have) return 1;
    ssize_t n = read(0, input, sizeof input);
    check(n >= 0);
    have = (size_t)n;
    at = 0;
    return n > 0;
}

static int byte(void) { return more() ? (unsigned char)input[at++] : -1; }

static void take(unsigned char *into, size_t left) {
    while (left > 0 && more()) {
        size_t part = have - at < left ? have - at : left;
        memcpy(into, input + at, part);
        at += part;
        into += part;
        left -= part;
    }
}

// Reads the next request and its sectors. Zero where the input ends.
static int take_request(struct request *request, unsigned char *sectors) {
    int c;
    request->length = 0;
    while ((c = byte()) >= 0 && c != '\n' && request->length < LINE - 1) request->line[request->length++] = (char)c;
    if (c < 0) return 0;
    request->line[request->length] = 0;
    if (sscanf(request->line, "write %63s %lu %lu", request->name, &request->lba, &request->sectors) != 3) request->sectors = 0;
    check(request->sectors <= SLOT_SECTORS);
    take(sectors, request->sectors * SECTOR);
    return 1;
}

// A read's place isn't told: it is that of the next write to its device, which is a gate's.
static void place_reads(void) {
    off_t places[DRIVES + NVRAM] = {0};
    for (size_t n = count; n-- > 0;) {
        struct call *call = &calls[n];
        if (call->what == 'w') places[call->device] = call->at;
        if (call->what == 'r') {
            call->at = places[call->device];
            call->size = SECTOR;
        }
    }
}

static void load(const char *path) {
    FILE *file = fopen(path, "r");
    check(file != NULL);
    size_t room = 0;
    char line[80];
    while (fgets(line, sizeof line, file)) {
        if (count == room) {
            room = room ? 2 * room : 1024;
            calls = realloc(calls, room * sizeof *calls);
            check(calls != NULL);
        }
        struct call *call = &calls[count++];
        char kind;
        unsigned number;
        long long place;
        if (strcmp(line, "reply\n") == 0) {
            *call = (struct call){0};
            continue;
        }
        check(sscanf(line, "%c %c %u %lld %u", &call->what, &kind, &number, &place, &call->size) == 5);
        check((kind == 'd' && number < DRIVES) || (kind == 'n' && number < NVRAM));
        check(call->size <= BLOCK);
        call->device = (unsigned char)(kind == 'd' ? number : DRIVES + number);
        call->at = (off_t)place;
    }
    fclose(file);
    place_reads();
}

static void open_files(void) {
    char path[32];
    for (int n = 0; n < DRIVES + NVRAM; n++) {
        if (n < DRIVES)
            sprintf(path, "shelf/drive%02d", n);
        else
            sprintf(path, "shelf/nvram%d", n - DRIVES);
        files[n] = open(path, O_RDWR);
    }
}

static const struct call *next_call(void) {
    check(next < count);
    return &calls[next];
}

// Makes the next call, with these bytes where it is a write.
static void make_call(const void *bytes) {
    const struct call *call = &calls[next++];
    int file = files[call->device];
    if (call->what == 'w') {
        check(pwrite(file, bytes, call->size, call->at) == (ssize_t)call->size);
    } else if (call->what == 's') {
        check(fdatasync(file) == 0);
    } else {
        static char gate[SECTOR];
        check(pread(file, gate, call->size, call->at) == (ssize_t)call->size);
    }
}

static void reply(void) {
    next++;
    check(write(1, "ok\n", 3) == 3);
}
