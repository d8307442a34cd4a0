/* Plays the roll on standard input, with no image and 128 frames, and prints its replies. */
#include <stdio.h>
#include "gazhuppin.h"

static uint8_t roll[GAZHUPPIN_MOST_LINES * GAZHUPPIN_LINE_BYTES], image[1];
static uint8_t pool[GAZHUPPIN_MOST_FRAMES * GAZHUPPIN_FRAME_BYTES];
static uint16_t table[GAZHUPPIN_TABLE_ENTRIES];
static uint8_t out[GAZHUPPIN_MOST_LINES * GAZHUPPIN_REPLY_BYTES];

int main(void) {
    size_t bytes = fread(roll, 1, sizeof roll, stdin);
    size_t lines = gazhuppin_play(roll, bytes, image, 0, pool, sizeof pool,
                                  table, GAZHUPPIN_TABLE_ENTRIES, out, sizeof out);
    return fwrite(out, GAZHUPPIN_REPLY_BYTES, lines, stdout) == lines ? 0 : 1;
}
