/* A little server: a sandbox is opened and filled, its snapshot taken, and after each of three
 * requests it is rewound, so that no request meets anything of the one before. */
#include <inttypes.h>
#include <stdio.h>
#include <stdlib.h>
#include "gazhuppin.h"

static uint8_t state[GAZHUPPIN_STATE_BYTES], image[1];
static uint8_t pool[16 * GAZHUPPIN_FRAME_BYTES];
static uint16_t table[GAZHUPPIN_TABLE_ENTRIES];

enum { TALLY = 5, OTHER_PAGE = 256 }; /* addresses */

/* One call for sandbox 0. Gives its value, and ends the program where it is refused. */
static uint32_t call(uint16_t code, uint16_t p1, uint16_t p2, uint16_t p3, uint16_t p4,
                     uint16_t p5) {
    struct gazhuppin_request request = {code, 0, p1, p2, p3, p4, p5};
    struct gazhuppin_told told =
        gazhuppin_call(state, sizeof state, pool, sizeof pool, table, GAZHUPPIN_TABLE_ENTRIES,
                       image, 0, request);
    if (told.number != 0) {
        printf("call %" PRIu16 " is refused: %" PRIu32 "\n", code, told.number);
        exit(1);
    }
    return told.value;
}

static uint32_t read_byte(uint16_t address) { return call(GAZHUPPIN_READ, address, 0, 0, 0, 0); }

static void write_byte(uint16_t address, uint32_t byte) {
    call(GAZHUPPIN_WRITE, address, (uint16_t)byte, 0, 0, 0);
}

int main(void) {
    if (gazhuppin_state_bytes() != sizeof state) {
        printf("this header does not belong to the library\n");
        return 1;
    }
    if (gazhuppin_start(state, sizeof state, pool, sizeof pool, table, GAZHUPPIN_TABLE_ENTRIES,
                        image, 0) != 0)
        return 1;
    call(GAZHUPPIN_OPEN, 8, 0, 0, 0, 0);
    uint32_t page = call(GAZHUPPIN_MAP, GAZHUPPIN_LOWEST_GAP, 2, GAZHUPPIN_ANONYMOUS, 0,
                         GAZHUPPIN_READ_WRITE);
    printf("sandbox 0 is open, 2 pages are mapped from page %" PRIu32 " on\n", page);
    write_byte(TALLY, 100);
    uint32_t pages = call(GAZHUPPIN_SNAPSHOT, 0, 0, 0, 0, 0);
    printf("the tally is 100; the snapshot has %" PRIu32 " pages\n", pages);
    for (uint32_t request = 1; request <= 3; request++) {
        uint32_t tally = read_byte(TALLY);
        write_byte(TALLY, tally + request);
        write_byte(OTHER_PAGE, request);
        printf("request %" PRIu32 ": the tally was %" PRIu32 " and is %" PRIu32 "\n", request,
               tally, read_byte(TALLY));
        uint32_t put_back = call(GAZHUPPIN_REWIND, 0, 0, 0, 0, 0);
        uint32_t frames = call(GAZHUPPIN_REPORT, 0, 0, 0, 0, 0);
        printf("%" PRIu32 " pages put back: tally %" PRIu32 ", other page %" PRIu32 ", %" PRIu32
               " frames held\n",
               put_back, read_byte(TALLY), read_byte(OTHER_PAGE), frames);
    }
    return 0;
}
