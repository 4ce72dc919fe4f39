/* Loaded into the program before its libraries (LD_PRELOAD): when a file is to get the name that ends in APPEARS, another one is there
   under it at the last moment. With NO_LINKS a file has one name only, as on some file systems. What is synced is written to SYNCED. */
#define _GNU_SOURCE
#include <errno.h>
#include <fcntl.h>
#include <stdio.h>
#include <stdlib.h>
#include <string.h>
#include <sys/syscall.h>
#include <unistd.h>

static void appear(const char *name) {
    const char *end = getenv("APPEARS");
    if (end == NULL || strlen(name) < strlen(end) || strcmp(name + strlen(name) - strlen(end), end) != 0) return;
    int file = open(name, O_CREAT | O_EXCL | O_WRONLY, 0600);
    if (file < 0) return;
    if (write(file, "mine", 4) != 4) abort();
    close(file);
}

int rename(const char *from, const char *to) {
    appear(to);
    return (int)syscall(SYS_renameat2, AT_FDCWD, from, AT_FDCWD, to, 0);
}

int linkat(int from_folder, const char *from, int to_folder, const char *to, int flags) {
    if (getenv("NO_LINKS") != NULL) {
        errno = EPERM;
        return -1;
    }
    appear(to);
    return (int)syscall(SYS_linkat, from_folder, from, to_folder, to, flags);
}

int link(const char *from, const char *to) { return linkat(AT_FDCWD, from, AT_FDCWD, to, 0); }

int fsync(int file) {
    const char *synced = getenv("SYNCED");
    char path[64], name[4096];
    snprintf(path, sizeof path, "/proc/self/fd/%d", file);
    ssize_t length = readlink(path, name, sizeof name - 1);
    if (synced != NULL && length > 0) {
        name[length] = '\n';
        int list = open(synced, O_CREAT | O_APPEND | O_WRONLY, 0600);
        if (list < 0 || write(list, name, (size_t)length + 1) != length + 1) abort();
        close(list);
    }
    return (int)syscall(SYS_fsync, file);
}
