/* How long a LOCK takes to land. */
#include "load.h"
#include <stdio.h>

void run_lock(const char *path, size_t times, double pause) {
    text lock = frame_of(LOCK, "\0\0\0\5vents", 9), unlock = frame_of(UNLOCK, "\0\0\0\5vents", 9);
    int fd = dial(path);
    for (; times; times--) {
        uint64_t start = nanoseconds();
        if (exchange(fd, lock) != SUCCESS) die("LOCK failed");
        printf("%.1f\n", (double)(nanoseconds() - start) / 1e3);
        if (exchange(fd, unlock) != SUCCESS) die("UNLOCK failed");
        rest(pause);
    }
}
