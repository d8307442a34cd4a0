/* The proved machine of rewinding sandboxes, for x86-64 and the System V calling convention.
 *
 * gazhuppin_start and gazhuppin_call make one call at a time on a machine that the caller keeps;
 * gazhuppin_archive writes a snapshot of it as a roll that rebuilds it; gazhuppin_play plays a
 * whole roll of calls from a start.
 *
 * Link libgazhuppin.a; of the C library it needs memcpy, memmove and memset. The functions use
 * only the memory that the caller lends for the time of the call, and a few KiB of stack: they
 * take nothing from the heap, keep nothing after they return and hold no state of their own.
 * Calls may run at the same time in several threads if no call writes memory that another one
 * uses.
 *
 * The calls, their refusals and the text of a roll's lines are those of document 01. What is
 * proved of the functions, and what that supposes of the caller, stands in docs/CLAIMS.md. */

#ifndef GAZHUPPIN_H
#define GAZHUPPIN_H

#include <stddef.h>
#include <stdint.h>

#ifdef __cplusplus
extern "C" {
#endif

#define GAZHUPPIN_LINE_BYTES 43     /* a line of a roll, with its line feed */
#define GAZHUPPIN_REPLY_BYTES 19    /* a reply, with its line feed */
#define GAZHUPPIN_MOST_LINES 65535  /* lines after these are not read */
#define GAZHUPPIN_FRAME_BYTES 256   /* a frame of the pool, and a page of the image */
#define GAZHUPPIN_MOST_FRAMES 128   /* a pool has 1 to 128 frames */
#define GAZHUPPIN_MOST_PAGES 64     /* an image has 0 to 64 pages */
#define GAZHUPPIN_TABLE_ENTRIES 512 /* a table has exactly these */
#define GAZHUPPIN_STATE_BYTES 932   /* a state has exactly these; see gazhuppin_state_bytes */
#define GAZHUPPIN_MOST_ARCHIVE_LINES 16402 /* lines of the longest archive of a snapshot */

/* The codes of the calls, with their parameters p1 to p5. Parameters that a call does not name
 * must be 0. Its value is 0 where none is named. A sandbox has pages 0 to 63 of 256 bytes, so
 * addresses 0 to 16383. */
enum gazhuppin_code {
    GAZHUPPIN_OPEN = 1,     /* p1 share, 1 to 128 frames */
    GAZHUPPIN_MAP = 2,      /* p1 first page, or GAZHUPPIN_LOWEST_GAP; p2 pages, 1 to 64; p3
                               backing; p4 first image page (0 when anonymous); p5 rights.
                               Value: first page. An anonymous map at the lowest gap takes
                               frames that the sandbox keeps (see GAZHUPPIN_REWIND) for its
                               first pages; they are zero, so that no byte read tells of it */
    GAZHUPPIN_UNMAP = 3,    /* p1 first page; p2 pages, 1 to 64. Pages that are not mapped are
                               passed over: where none is mapped, nothing changes */
    GAZHUPPIN_PROTECT = 4,  /* p1 first page; p2 pages, 1 to 64; p3 rights */
    GAZHUPPIN_READ = 5,     /* p1 address. Value: the byte */
    GAZHUPPIN_WRITE = 6,    /* p1 address; p2 byte */
    GAZHUPPIN_SNAPSHOT = 7, /* once for a sandbox. Value: pages of the snapshot */
    GAZHUPPIN_REWIND = 8,   /* mappings, rights and bytes of the snapshot return. Frames of
                               anonymous areas mapped since are cleared and kept, at most 8
                               runs of them and within the share, for maps to come. Value:
                               pages put back: those of the snapshot that were mapped all the
                               while, since it or the last rewind, and whose bytes differed */
    GAZHUPPIN_REPORT = 9,   /* Value: frames that the sandbox holds: those of its pages, those of
                               its snapshot, and those it keeps from finished requests */
    GAZHUPPIN_COMPARE = 10  /* still clean? Value: the lowest page at which the sandbox and its
                               snapshot differ in being mapped, in rights or in bytes, or
                               GAZHUPPIN_CLEAN where they nowhere differ */
};

#define GAZHUPPIN_LOWEST_GAP 64 /* map where the lowest gap that is long enough begins */
#define GAZHUPPIN_CLEAN 64      /* compare's value where no page differs; it names none */

enum gazhuppin_backing { GAZHUPPIN_ANONYMOUS = 0, GAZHUPPIN_IMAGE = 1 };
enum gazhuppin_rights { GAZHUPPIN_READ_ONLY = 1, GAZHUPPIN_READ_WRITE = 3 };

/* Why a call is refused. Where several apply, the lowest is answered. */
enum gazhuppin_refusal {
    GAZHUPPIN_MALFORMED = 1,        /* a line of a roll; never answered to a call */
    GAZHUPPIN_NO_SUCH_CALL = 2,     /* the code is not 1 to 10 */
    GAZHUPPIN_UNSOUND = 3,          /* a lent length is wrong, or the state is unsound */
    GAZHUPPIN_NOT_OPEN = 4,         /* the sandbox is above 3, or, but for open, not open */
    GAZHUPPIN_ALREADY_OPEN = 5,     /* open of an open sandbox */
    GAZHUPPIN_OUTSIDE_LIMITS = 6,   /* a parameter outside its limits, pages past page 63, image
                                       pages past the image, an unused parameter not 0 */
    GAZHUPPIN_SNAPSHOT_TAKEN = 7,   /* a second snapshot */
    GAZHUPPIN_NO_SNAPSHOT = 8,      /* rewind, compare or an archive without a snapshot */
    GAZHUPPIN_NOT_MAPPED = 9,       /* protect, read or write meets an unmapped page */
    GAZHUPPIN_ALREADY_MAPPED = 10,  /* map at a named page meets a mapped page */
    GAZHUPPIN_NO_GAP = 11,          /* map at the lowest gap, and none is long enough */
    GAZHUPPIN_NOT_WRITABLE = 12,    /* write to a page without the write right */
    GAZHUPPIN_SHARE_EXCEEDED = 13,  /* shares above the pool, or the charge above the share */
    GAZHUPPIN_TOO_MANY_AREAS = 14,  /* more than 8 areas would result */
    GAZHUPPIN_OUTPUT_TOO_SHORT = 15 /* out is shorter than the archive; never answered to a call */
};

/* What is asked of a machine: a call, see enum gazhuppin_code. Unused parameters must be 0. */
struct gazhuppin_request {
    uint16_t code;
    uint16_t sandbox;
    uint16_t p1, p2, p3, p4, p5;
};

/* What a call answers, or gazhuppin_archive. */
struct gazhuppin_told {
    uint32_t number; /* 0, or the refusal's number */
    uint32_t value;  /* 0 where the call is refused */
};

/* How many bytes a state has: GAZHUPPIN_STATE_BYTES of the header that belongs to the library.
 * States are not promised to stay the same from one version of the library to another. */
size_t gazhuppin_state_bytes(void);

/* Starts a machine: four closed sandboxes.
 *
 * The caller owns every region, before and after, and keeps state, pool and table for the calls
 * to come. No pointer may be NULL, not even one whose length is 0. state, pool and table must
 * overlap neither each other nor image, which is only read.
 *
 * state: state_bytes bytes, which must be gazhuppin_state_bytes(). A fresh state is written to
 *        it.
 * pool:  pool_bytes bytes: 1 to 128 frames of 256 bytes. It is cleared.
 * table: table_entries 16-bit numbers, which must be 512, aligned for uint16_t. It is cleared.
 * image: image_bytes bytes: 0 to 64 pages of 256 bytes, for mappings with backing 1.
 *
 * Returns 0, or GAZHUPPIN_UNSOUND (3) where a length is wrong: pool and table are then left as
 * they are, and so is state where its own length is wrong; else a fresh state is written to it. */
uint32_t gazhuppin_start(uint8_t *state, size_t state_bytes,
                         uint8_t *pool, size_t pool_bytes,
                         uint16_t *table, size_t table_entries,
                         const uint8_t *image, size_t image_bytes);

/* Makes one call on a machine.
 *
 * state, pool, table, image: as at the start, and with the same rules. Between calls state, pool
 *        and table must be left exactly as the start or the last call left them (they may be
 *        read, or moved elsewhere whole), and every call gets the same image.
 * request: the call. Any numbers may be given.
 *
 * Returns the answer: number 0 and the call's value, or a refusal's number and value 0. A
 * refused call leaves every byte of state, pool and table as it was.
 *
 * If these rules are kept, and the start answered 0, the answers are those of document 01's
 * plain machine, and after a rewind, whose own value counts the pages put back, nothing of what
 * came before it since the snapshot can be told from the sandbox's answers but the count of held
 * frames. Whatever bytes are handed in, the call ends and writes to state, pool and table alone;
 * a state that is not sound, or bytes that are no state, are refused (3, or 2 where the code is
 * no call's). Bytes altered so that another sound state results cannot be told, and are answered
 * as that state. */
struct gazhuppin_told gazhuppin_call(uint8_t *state, size_t state_bytes,
                                     uint8_t *pool, size_t pool_bytes,
                                     uint16_t *table, size_t table_entries,
                                     const uint8_t *image, size_t image_bytes,
                                     struct gazhuppin_request request);

/* Writes the archive of a sandbox's snapshot: a roll that rebuilds it.
 *
 * It is no call: it has no code, no line of a roll asks for it, and it changes nothing but out.
 *
 * state, pool, table, image: as in gazhuppin_call, but only read. No pointer may be NULL.
 * sandbox: any number may be given.
 * out:   out_bytes bytes, which overlap none of the others. 43 * GAZHUPPIN_MOST_ARCHIVE_LINES
 *        always suffice. The lines are written to its start, and bytes after them are left as
 *        they are.
 *
 * The lines, 43 bytes each and every one with this sandbox's number: an open with its share; for
 * each area of the snapshot, in page order, a map at its first page with rights 3; for each byte
 * of the snapshot that differs from its page's zero or image byte, in address order, a write; for
 * each area with rights 1, in page order, a protect; a snapshot.
 *
 * Returns number 0 and, as value, the number of lines; or a refusal's number and value 0, with
 * every byte of out left as it was: 3 where a length is wrong, the bytes are no state's or the
 * state is unsound; 4 where the sandbox is above 3 or not open; 8 where it has no snapshot; 15
 * where out is shorter than the lines. Where several apply, the lowest is answered.
 *
 * Played from a start with the same image and a pool as long, every line is accepted, and the
 * sandbox's snapshot and present pages are then the written snapshot's, in mappings, rights and
 * bytes. Its archive is the same again. */
struct gazhuppin_told gazhuppin_archive(const uint8_t *state, size_t state_bytes,
                                        const uint8_t *pool, size_t pool_bytes,
                                        const uint16_t *table, size_t table_entries,
                                        const uint8_t *image, size_t image_bytes,
                                        uint16_t sandbox,
                                        uint8_t *out, size_t out_bytes);

/* How many lines a roll has.
 *
 * roll_bytes: the length of the roll in bytes.
 *
 * Returns the number of whole 43-byte lines, one more if some bytes are left over (a short last
 * line, which is malformed), and at most 65,535. A roll needs an out of 19 times as many bytes. */
size_t gazhuppin_lines(size_t roll_bytes);

/* Starts a machine, plays a roll on it and writes the replies.
 *
 * The caller owns every region, before and after. No pointer may be NULL, not even one whose
 * length is 0. pool, table and out, which are written, must overlap neither each other nor roll
 * or image; roll and image are only read.
 *
 * roll:  roll_bytes bytes, any number: lines of 43 bytes.
 * image: image_bytes bytes: 0 to 64 pages of 256 bytes, for mappings with backing 1.
 * pool:  pool_bytes bytes: 1 to 128 frames of 256 bytes. What it held before is lost.
 * table: table_entries 16-bit numbers, which must be 512, aligned for uint16_t. What it held
 *        before is lost.
 * out:   out_bytes bytes, at least 19 * gazhuppin_lines(roll_bytes). The replies are written to
 *        its start, one of 19 bytes for each line: line number from 1, refusal number or 0,
 *        value. Bytes after them are left as they are.
 *
 * Returns the number of lines played, which is that of the replies: gazhuppin_lines(roll_bytes).
 * If out is too short it returns 0, and nothing has been written to any region. (A roll of no
 * bytes returns 0 as well: pool and table are then cleared.)
 *
 * A wrong length of image, pool or table is no error of the call: pool and table are then left
 * as they are, and every line is answered with a refusal: 1 if it is malformed, 2 if its code is
 * not 1 to 10, 3 otherwise.
 *
 * Afterwards pool and table are those of the machine after the last line. The front entry of
 * page i of sandbox s is table[128 * s + i], its back entry table[128 * s + 64 + i]. An entry is
 * 0 for none, else a frame number plus one; frame f is pool[256 * f] to pool[256 * f + 255]. A
 * frame that no entry names is all zero. Pool and table cannot be handed to gazhuppin_call to go on
 * with, since the state is not kept: every play starts anew. */
size_t gazhuppin_play(const uint8_t *roll, size_t roll_bytes,
                      const uint8_t *image, size_t image_bytes,
                      uint8_t *pool, size_t pool_bytes,
                      uint16_t *table, size_t table_entries,
                      uint8_t *out, size_t out_bytes);

#ifdef __cplusplus
}
#endif

#endif
