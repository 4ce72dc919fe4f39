/* The functions of target/staticlib/libboundary.a, a copy of what `rt lib` in crates/boundary writes
   to out/ there. crates/boundary/src has their contracts. A slice is a pointer to its bytes, not
   null, and their count. Slices of one call do not overlap, unless both are only read. "Number" is
   the number of a refusal, 1 to 26, or 0 for none.

   waiting is the waiting part of log: whole sectors of 512 bytes, at most 256 of them (else 3), all
   zeros at first, and from then on as the last skywimple_serve left it. Its sectors are numbered on
   from the end of log's used part, and both are read as one log; it may be empty.

   12 ("not known") comes with the first doubtful sector. Where log has n used sectors, sector s is
   the 512 bytes of log from 512 * s on if s < n, else those of waiting from 512 * (s - n) on. No call
   has a precondition besides. */
#ifndef SKYWIMPLE_H
#define SKYWIMPLE_H

#include <stddef.h>
#include <stdint.h>

#ifdef __cplusplus
extern "C" {
#endif

/* The CRC-32 of s. */
uint32_t skywimple_crc32(const uint8_t *s, size_t s_len);

/* Writes the SHA-1 of s to the first 20 bytes of out and returns 0.
   Where out is shorter it writes nothing and returns 2. */
uint32_t skywimple_sha1(const uint8_t *s, size_t s_len, uint8_t *out, size_t out_len);

/* Answers one request. session: 0 fresh, 1 greeted, anything else closed. The result is the number,
   and 256 times the session afterwards. A reply stands at the front of reply, which needs 57,348
   bytes; a stored block is appended in waiting, and a sync moves all that is there into log and
   leaves waiting all zeros. It gets date, which is eight decimal digits with every message, else the
   number is 24; a block that is held already keeps the date that it has, or has none. 14 ("no room"):
   log has too few sectors beyond the used ones of both, or waiting too few blank ones left, which a
   sync mends. An error reply's text is why= and two digits,
   and for 12 also " at=" and the first doubtful sector in eight lower-case hex digits.
   index has any length and any bytes, and only makes reads faster: each entry is checked against the
   log. A read looks its block up by it, a write enters the block that it stores, and nothing else
   changes it; with index_len 0 all goes by the scan. */
uint32_t skywimple_serve(uint8_t session, const uint8_t *message, size_t message_len,
                         const uint8_t *date, size_t date_len, uint8_t *log, size_t log_len,
                         uint8_t *waiting, size_t waiting_len, uint8_t *index, size_t index_len,
                         uint8_t *reply, size_t reply_len);

/* Learns what is known of log, waiting and index, to the 25 bytes of known: how many sectors of log are
   used, and of waiting, eight bytes each, the first doubtful sector of both and one, or 0 for none, in
   eight, and 1 if index leads to every sound block, else 0. Numbers have their highest byte first.
   Returns the number (2 if known_len is not 25: nothing changes). */
uint32_t skywimple_learn(const uint8_t *log, size_t log_len, const uint8_t *waiting,
                         size_t waiting_len, const uint8_t *index, size_t index_len,
                         uint8_t *known, size_t known_len);

/* Answers one request as skywimple_serve does, by what is known; known then holds what is known after
   it. If it holds what skywimple_learn would write for log, waiting and index, all is as
   skywimple_serve leaves it, and known again holds what skywimple_learn would write. Whatever else
   changes a byte of the three, it has to be learned anew. 2 also if known_len is not 25: nothing
   changes. */
uint32_t skywimple_serve_known(uint8_t session, const uint8_t *message, size_t message_len,
                               const uint8_t *date, size_t date_len, uint8_t *log, size_t log_len,
                               uint8_t *waiting, size_t waiting_len, uint8_t *index,
                               size_t index_len, uint8_t *reply, size_t reply_len, uint8_t *known,
                               size_t known_len);

/* Looks up a score, 20 bytes, and type by index, of any length and bytes: the block of the first true
   entry of its bucket, else the one that the scan finds. number = result % 256 (3, 9, 11 or 12), the
   block's size in bytes = result / 256 % 65536, and the sector where it starts, or the first doubtful
   one for 12 = result / 16777216. The empty block has size 0 and sector 0. */
uint64_t skywimple_look_up_by(const uint8_t *log, size_t log_len, const uint8_t *waiting,
                              size_t waiting_len, const uint8_t *index, size_t index_len,
                              uint8_t kind, const uint8_t score[20]);

/* Rebuilds index from log alone, which has nothing waiting: its places, 25 bytes each and as many as
   index_len / 6400 in each of 256 buckets, become free, and every sound block is entered as far as
   its bucket has one. Returns the number (3 for a log that is not allowed: index stays). */
uint32_t skywimple_rebuild(const uint8_t *log, size_t log_len, uint8_t *index, size_t index_len);

/* Writes the report of log, without what waits, to the front of buffer, which needs 128 bytes. The result is the number,
   and 256 times the length of the text. */
uint32_t skywimple_report(const uint8_t *log, size_t log_len, uint8_t *buffer, size_t buffer_len);

/* The sound block that starts at a sector: the number (3 for a log that is not allowed), and 256
   times the block's size in bytes, 0 where none starts. Its sectors are the size over 389, rounded up,
   if the sector begins with the line of a date, else over 403. */
uint32_t skywimple_sound_at(const uint8_t *log, size_t log_len, size_t sector);

/* The length of a block without the zeros at its end (for pointer types, zero scores). A refusal is
   block_len plus its number; an answer is at most block_len. */
size_t skywimple_cut(uint8_t kind, const uint8_t *block, size_t block_len);

/* Pads the block of block_len bytes at the front of buffer to target bytes; returns the number. */
uint32_t skywimple_pad(uint8_t kind, uint8_t *buffer, size_t buffer_len, size_t block_len,
                       size_t target);

/* Where the bytes of a file at an offset lie, as one run. entry has 40 bytes; page is zeros. From
   the lowest bit on, the result is: the number (8 bits), the slice that the run lies in (2 bits: 0
   log, 1 waiting, 2 page), its length (16 bits), and the byte of the slice where it starts; a run in
   page starts at its front. A refusal has 0 in all of these, but for 12, which has the first doubtful
   sector in place of the start: result / 67108864. */
uint64_t skywimple_locate(const uint8_t *log, size_t log_len, const uint8_t *waiting,
                          size_t waiting_len, const uint8_t *page, size_t page_len,
                          const uint8_t *entry, size_t entry_len, uint64_t offset);

/* Fills buffer with the bytes of a file from an offset on, up to the end of buffer or of the file.
   entry has 40 bytes. The result is the number, and 256 times the count of the bytes written to the
   front of buffer; the rest of it stays. A refusal is the one that skywimple_locate gives at the
   first offset behind them. *told becomes the first doubtful sector for 12, else 0. */
uint64_t skywimple_fill(const uint8_t *log, size_t log_len, const uint8_t *waiting,
                        size_t waiting_len, const uint8_t *entry, size_t entry_len, uint64_t offset,
                        uint8_t *buffer, size_t buffer_len, uint64_t *told);

/* Walks from a root's score, 20 bytes. The result is the number, 256 times the visits spent, which are
   at most 1,000,000, and for 12 also 268435456 times the first doubtful sector:
   number = result % 256, visits = result / 256 % 1048576, sector = result / 268435456. */
uint64_t skywimple_walk(const uint8_t *log, size_t log_len, const uint8_t *waiting,
                        size_t waiting_len, const uint8_t score[20], uint64_t allowance);

/* Where two directory blocks first differ, each a multiple of 40 bytes and at most 57,344 (else 16). The
   result is the number, 256 times the block that has the entry (1 the first, 2 the second, 0 where there
   is no difference), and 1024 times the byte of that block at which its 40 bytes start. */
uint64_t skywimple_difference(const uint8_t *first, size_t first_len, const uint8_t *second,
                              size_t second_len);

/* Counts the differences between two directory entries, 40 bytes each. The result is the number, 256
   times the units spent, which are at most 1,000,000, and 268435456 times the count, up to there:
   number = result % 256, units = result / 256 % 1048576, count = result / 268435456. *told becomes the
   first doubtful sector for 12, else 0. */
uint64_t skywimple_differences(const uint8_t *log, size_t log_len, const uint8_t *waiting,
                               size_t waiting_len, const uint8_t *first, size_t first_len,
                               const uint8_t *second, size_t second_len, uint64_t allowance,
                               uint64_t *told);

/* Asks a query of the card that an entry leads to. entry has 40 bytes; page is zeros. A card has at
   most 4,096 bytes (else 25), a query at most 256 (else 26). The result is the number, 256 times the
   value (1 yes, 2 no, 3 not known; 0 where it is refused), and for 12 also 65536 times the first
   doubtful sector: number = result % 256, value = result / 256 % 256, sector = result / 65536. */
uint64_t skywimple_search(const uint8_t *log, size_t log_len, const uint8_t *waiting,
                          size_t waiting_len, const uint8_t *page, size_t page_len,
                          const uint8_t *entry, size_t entry_len, const uint8_t *query,
                          size_t query_len);

/* 1 where the bytes are a card: at most 4,096, and well-formed; else 0. */
uint32_t skywimple_is_card(const uint8_t *bytes, size_t bytes_len);

/* The block type of a number of the enumeration: the number 9 for none, else 256 times the type. */
uint32_t skywimple_block_type(uint64_t number);

/* Copies all that a root reaches, from its score, 20 bytes, into a second log for which nothing waits:
   each block is appended there behind all that it links to, with the date, 8 digits (else 24). A refusal
   keeps what was copied before it; 3, 24 and 23 write nothing, and 14 and 15 speak of the second log.
   The result is packed as that of skywimple_walk; the sector is the first log's. */
uint64_t skywimple_copy(const uint8_t *log, size_t log_len, const uint8_t *waiting,
                        size_t waiting_len, uint8_t *second, size_t second_len, const uint8_t *date,
                        size_t date_len, const uint8_t score[20], uint64_t allowance);

/* Writes slice, at most 57,344 bytes (else 10), as a file: leaves of dsize bytes, pointer blocks of psize
   (else 16), each cut and appended in waiting with the date, 8 digits (else 24), as a write of it would
   be. entry has 40 bytes and scores at least 1,146,880 (else 2); of scores, those used are zeros
   afterwards. Returns the number. Only where it is 0 the file's entry stands in entry. 14 and 15 keep the
   blocks before the refused one; 14 for want of room in waiting is mended by a sync, after which the same
   call finds them and goes on. */
uint32_t skywimple_write_file(const uint8_t *log, size_t log_len, uint8_t *waiting, size_t waiting_len,
                              const uint8_t *date, size_t date_len, const uint8_t *slice,
                              size_t slice_len, size_t dsize, size_t psize, uint8_t *entry,
                              size_t entry_len, uint8_t *scores, size_t scores_len);

#ifdef __cplusplus
}
#endif

#endif
