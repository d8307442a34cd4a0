/* A snapshot, and its archive on standard output: a roll that rebuilds it. The roll is played
 * before it is printed, to see that every line of it is accepted. */
#include <inttypes.h>
#include <stdio.h>
#include "gazhuppin.h"

enum { FRAMES = 16, MOST_BYTES = GAZHUPPIN_MOST_ARCHIVE_LINES * GAZHUPPIN_LINE_BYTES };

static uint8_t state[GAZHUPPIN_STATE_BYTES], pool[FRAMES * GAZHUPPIN_FRAME_BYTES], image[1];
static uint16_t table[GAZHUPPIN_TABLE_ENTRIES];
static uint8_t roll[MOST_BYTES], replies[GAZHUPPIN_MOST_ARCHIVE_LINES * GAZHUPPIN_REPLY_BYTES];

#define LENT state, sizeof state, pool, sizeof pool, table, GAZHUPPIN_TABLE_ENTRIES, image, 0
#define CALL(...) (gazhuppin_call(LENT, (struct gazhuppin_request){__VA_ARGS__}).number != 0)

/* One page with a byte written, and one that may only be read. */
static int refused(void) {
    return gazhuppin_start(LENT) != 0 || CALL(GAZHUPPIN_OPEN, 2, 8, 0, 0, 0, 0) ||
           CALL(GAZHUPPIN_MAP, 2, 10, 2, GAZHUPPIN_ANONYMOUS, 0, GAZHUPPIN_READ_WRITE) ||
           CALL(GAZHUPPIN_WRITE, 2, 10 * 256 + 5, 77, 0, 0, 0) ||
           CALL(GAZHUPPIN_PROTECT, 2, 11, 1, GAZHUPPIN_READ_ONLY, 0, 0) ||
           CALL(GAZHUPPIN_SNAPSHOT, 2, 0, 0, 0, 0, 0);
}

int main(void) {
    if (refused())
        return 1;
    struct gazhuppin_told told = gazhuppin_archive(LENT, 2, roll, sizeof roll);
    if (told.number != 0) {
        fprintf(stderr, "the archive is refused: %" PRIu32 "\n", told.number);
        return 1;
    }
    size_t bytes = (size_t)told.value * GAZHUPPIN_LINE_BYTES;
    size_t lines = gazhuppin_play(roll, bytes, image, 0, pool, sizeof pool,
                                  table, GAZHUPPIN_TABLE_ENTRIES, replies, sizeof replies);
    for (size_t line = 0; line < lines; line++) /* the refusal's number ends in its 12th column */
        if (replies[line * GAZHUPPIN_REPLY_BYTES + 11] != '0')
            return 1;
    return lines == told.value && fwrite(roll, 1, bytes, stdout) == bytes ? 0 : 1;
}
