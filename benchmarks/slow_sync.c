/* A disk that takes longer: a sleep of SLOW_SYNC microseconds follows each call that brings a file to the disk.
   measure_serve.py compiles it and has it loaded before the program's libraries. */
#define _GNU_SOURCE
#include <dlfcn.h>
#include <stdlib.h>
#include <time.h>

static int later(const char *name, int file) {
    int (*call)(int) = (int (*)(int))dlsym(RTLD_NEXT, name);
    long wanted = atol(getenv("SLOW_SYNC"));
    struct timespec rest = {wanted / 1000000, wanted % 1000000 * 1000};
    int status = call(file);
    nanosleep(&rest, NULL);
    return status;
}

int fsync(int file) { return later("fsync", file); }
int fdatasync(int file) { return later("fdatasync", file); }
