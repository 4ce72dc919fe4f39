/* Loaded into the program before its libraries (LD_PRELOAD): at one step of its writing the machine stops. A step is a write, a sync
   or a renaming; STOP_AT is the one, counted from 0. Of each write that was not synced any sectors arrive, whole or in part, by the
   number STOP_SEED; then the process is killed. Until then nothing differs but that a sync takes no time. */
#define _GNU_SOURCE
#include <fcntl.h>
#include <signal.h>
#include <stdint.h>
#include <stdlib.h>
#include <string.h>
#include <sys/syscall.h>
#include <unistd.h>

enum { SECTOR = 512, MOST = 64 };

/* What a write that was not synced wrote over. */
struct before {
    int file;
    off_t at;
    size_t length;
    unsigned char *bytes;
};

static struct before unsynced[MOST];
static int count = 0;
static uint64_t state = 0;

static size_t below(size_t limit) {
    state = state * UINT64_C(6364136223846793005) + UINT64_C(1442695040888963407);
    return (size_t)(state >> 33) % limit;
}

/* A part of what was there is there again. */
static void take_back(const struct before *was, size_t from, size_t to) {
    if (to > was->length) to = was->length;
    if (from < to) syscall(SYS_pwrite64, was->file, was->bytes + from, to - from, was->at + (off_t)from);
}

/* Each sector of a write arrives whole, not at all, or its front or its rear alone; most of them in one of these ways. */
static void tear(const struct before *was) {
    size_t usual = below(5);
    for (size_t sector = 0; sector < was->length; sector += SECTOR) {
        size_t cut = sector + below(SECTOR);
        switch (below(3) == 0 ? below(4) : usual) {
        case 1: take_back(was, sector, sector + SECTOR); break;
        case 2: take_back(was, cut, sector + SECTOR); break;
        case 3: take_back(was, sector, cut); break;
        }
    }
}

/* One step: whether it is the last one, and then what comes of it. */
static void step(void) {
    static long steps = 0;
    const char *at = getenv("STOP_AT"), *seed = getenv("STOP_SEED");
    if (at == NULL || seed == NULL || steps++ != atol(at)) return;
    state = strtoull(seed, NULL, 10);
    while (count > 0) tear(&unsynced[--count]);
    kill(getpid(), SIGKILL);
    for (;;) pause();
}

ssize_t pwrite64(int file, const void *bytes, size_t length, off_t at) {
    struct before was = {file, at, 0, malloc(length + 1)};
    if (was.bytes == NULL || count == MOST) abort();
    long found = syscall(SYS_pread64, file, was.bytes, length, at);
    if (found > 0) was.length = (size_t)found;
    unsynced[count++] = was;
    ssize_t written = syscall(SYS_pwrite64, file, bytes, length, at);
    step();
    return written;
}

int fsync(int file) {
    step();
    int kept = 0;
    for (int i = 0; i < count; i++) {
        if (unsynced[i].file == file) free(unsynced[i].bytes);
        else unsynced[kept++] = unsynced[i];
    }
    count = kept;
    return 0;
}

int fdatasync(int file) { return fsync(file); }

int rename(const char *from, const char *to) {
    step();
    return (int)syscall(SYS_renameat2, AT_FDCWD, from, AT_FDCWD, to, 0);
}
