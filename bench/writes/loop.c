// The device calls of logged requests over files, in C: for each request of its input (a line, behind a write's line its data) it makes the calls that the
// program makes for it, in the same order, those of checkpoints among them, and answers `ok`. Which they are a file says, as `array_histories trace` prints it:
// a letter (write, sync or read), the device (a drive or an NVRAM device, and its number), the place and the size; a line `reply` ends a request's calls.
// A command is written to the log as it came; checkpoints write other bytes than the program's, as many, and compute nothing. work.c computes them.
// Usage: loop TRACE. It checks nothing, and opens nothing but that file and those of ./shelf.
#include "calls.h"

int main(int argc, char **argv) {
    check(argc == 2);
    load(argv[1]);
    open_files();
    static unsigned char slot[SECTOR + SLOT_SECTORS * SECTOR], block[BLOCK];
    memset(block, 1, sizeof block);
    struct request request;
    while (take_request(&request, slot + SECTOR)) {
        memset(slot, 0, SECTOR);
        memcpy(slot, request.line, request.length);
        size_t bytes = SECTOR + request.sectors * SECTOR;
        while (next_call()->what != 0) {
            int is_command = next_call()->device >= DRIVES && next_call()->what == 'w' && next_call()->at >= FIRST;
            check(!is_command || next_call()->size == bytes);
            make_call(is_command ? slot : block);
        }
        reply();
    }
    return 0;
}
