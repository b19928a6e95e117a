// COUNT times: pwrite and fdatasync of BYTES at places of shelf/drive00 in turn.
#define _GNU_SOURCE
#include <fcntl.h>
#include <stdlib.h>
#include <string.h>
#include <unistd.h>

int main(int argc, char **argv) {
    if (argc != 3) return 2;
    size_t bytes = strtoul(argv[1], NULL, 10);
    size_t count = strtoul(argv[2], NULL, 10);
    size_t places = 64 * 65536 / bytes;
    char *piece = malloc(bytes);
    int file = open("shelf/drive00", O_RDWR);
    if (piece == NULL || file < 0) return 1;
    memset(piece, 7, bytes);
    for (size_t n = 0; n < count; n++) {
        if (pwrite(file, piece, bytes, (off_t)(n % places * bytes)) != (ssize_t)bytes) return 1;
        if (fdatasync(file) != 0) return 1;
    }
    return 0;
}
