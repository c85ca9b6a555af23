/* Copies SIZE octets COUNT times, from one buffer into places of a ring of 64 KiB, for bench/channel.py, and on from
   there through BUFFERS (1) such rings, for bench/session.py. */
#include <stdio.h>
#include <stdlib.h>
#include <string.h>

enum { RING = 65536, MOST = 8 };

int main(int argc, char **argv) {
    if (argc != 3 && argc != 4) return 1;
    size_t size = strtoul(argv[1], 0, 10), count = strtoul(argv[2], 0, 10), at = 0;
    size_t buffers = argc == 4 ? strtoul(argv[3], 0, 10) : 1;
    if (size == 0 || size > RING || buffers == 0 || buffers > MOST) return 1;
    char *from = malloc(size), *rings[MOST];
    if (!from) return 1;
    memset(from, 'x', size);
    for (size_t b = 0; b < buffers; b++) {
        rings[b] = malloc(2 * RING);
        if (!rings[b]) return 1;
        memset(rings[b], 0, 2 * RING);
    }
    for (size_t i = 0; i < count; i++) {
        for (size_t b = 0; b < buffers; b++) {
            memcpy(rings[b] + at, b == 0 ? from : rings[b - 1] + at, size);
            __asm__ volatile("" : : "r"(rings[b] + at) : "memory");
        }
        at = (at + size) % RING;
    }
    return rings[buffers - 1][at] == 'y';
}
