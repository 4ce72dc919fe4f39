/* The archive from C: a hello is answered, and so is a write, whose block is read back while it waits and again when a sync has moved
   it into the log; after damage a block that is not found is not known, and the first doubtful sector is told. Exits with 0 if every
   answer is as it must be. */
#include <stdio.h>
#include <stdlib.h>
#include <string.h>

#include "skywimple.h"

enum { LOG = 16 * 512, WAITING = 8 * 512, INDEX = 6400, REPLY = 57348 };

static uint8_t log_bytes[LOG];
static uint8_t waiting[WAITING];
static uint8_t index_bytes[INDEX];
static uint8_t reply[REPLY];
static uint8_t session = 0;
static const uint8_t date[8] = {'2', '0', '2', '6', '1', '1', '1', '6'};

/* One message, and what its number and its reply have to be. */
static void ask(const char *what, const uint8_t *message, size_t length, uint32_t number, const uint8_t *expected,
                size_t expected_length) {
    memset(reply, 0xee, sizeof reply);
    uint32_t result = skywimple_serve(session, message, length, date, sizeof date, log_bytes, sizeof log_bytes, waiting,
                                      sizeof waiting, index_bytes, sizeof index_bytes, reply, sizeof reply);
    if (result % 256 != number || memcmp(reply, expected, expected_length) != 0 || reply[expected_length] != 0xee) {
        fprintf(stderr, "%s: number %u, reply %02x %02x %02x %02x ..\n", what, (unsigned)(result % 256), reply[0], reply[1],
                reply[2], reply[3]);
        exit(1);
    }
    session = (uint8_t)(result / 256);
    printf("%s: answered\n", what);
}

int main(void) {
    const uint8_t hello[] = {0, 11, 4, 0, 0, 2, '0', '2', 0, 0, 0, 0, 0};
    const uint8_t welcome[] = {0, 6, 5, 0, 0, 0, 0, 0};
    ask("hello", hello, sizeof hello, 0, welcome, sizeof welcome);

    /* a data block of three bytes, `abc`: its score is FIPS 180's first example */
    const uint8_t write[] = {0, 9, 14, 1, 13, 0, 0, 0, 'a', 'b', 'c'};
    const uint8_t written[] = {0,    22,   15,   1,    0xa9, 0x99, 0x3e, 0x36, 0x47, 0x06, 0x81, 0x6a,
                               0xba, 0x3e, 0x25, 0x71, 0x78, 0x50, 0xc2, 0x6c, 0x9c, 0xd0, 0xd8, 0x9d};
    ask("write", write, sizeof write, 0, written, sizeof written);

    uint8_t read[28] = {0, 26, 12, 2};
    memcpy(read + 4, written + 4, 20);
    read[24] = 13;
    read[27] = 3;
    const uint8_t bytes[] = {0, 5, 13, 2, 'a', 'b', 'c'};
    ask("read", read, sizeof read, 0, bytes, sizeof bytes);
    if (log_bytes[0] != 0 || memcmp(waiting, "date=20261116\nrec=00000000\n", 27) != 0) {
        return 1;
    }

    const uint8_t sync[] = {0, 2, 16, 3};
    const uint8_t synced[] = {0, 2, 17, 3};
    ask("sync", sync, sizeof sync, 0, synced, sizeof synced);
    if (log_bytes[0] != 'd' || waiting[0] != 0) {
        return 1;
    }
    ask("read after it", read, sizeof read, 0, bytes, sizeof bytes);

    /* the write entered its block: one entry in the bucket of its score's first byte, which rebuilding makes again */
    const uint8_t *entry = index_bytes + 25 * 0xa9;
    if (memcmp(entry, written + 4, 20) != 0 || entry[20] != 13 || memcmp(entry + 21, "\0\0\0\0", 4) != 0) {
        return 1;
    }
    uint8_t kept[INDEX];
    memcpy(kept, index_bytes, INDEX);
    memset(index_bytes, 0xee, INDEX);
    if (skywimple_rebuild(log_bytes, sizeof log_bytes, index_bytes, sizeof index_bytes) != 0 || memcmp(kept, index_bytes, INDEX) != 0) {
        return 1;
    }

    /* look-up by it finds three bytes at sector 0 */
    if (skywimple_look_up_by(log_bytes, sizeof log_bytes, waiting, sizeof waiting, index_bytes, sizeof index_bytes, 13, written + 4) != 3 * 256) {
        return 1;
    }

    /* a blank sector is written over: it is doubtful now, and so are the blank ones before it, from 1 on */
    log_bytes[5 * 512] = 7;
    read[4] ^= 1;
    const uint8_t not_known[] = {0,   22,  1,   2,   0,   18,  'w', 'h', 'y', '=', '1', '2',
                                 ' ', 'a', 't', '=', '0', '0', '0', '0', '0', '0', '0', '1'};
    ask("read of another score", read, sizeof read, 12, not_known, sizeof not_known);

    uint64_t walked = skywimple_walk(log_bytes, sizeof log_bytes, waiting, sizeof waiting, read + 4, 9);
    unsigned number = walked % 256, visits = walked / 256 % 1048576, sector = walked / 268435456;
    printf("walk: number %u, visits %u, first doubtful sector %u\n", number, visits, sector);
    if (number != 12 || visits != 1 || sector != 1) {
        return 1;
    }
    return 0;
}
