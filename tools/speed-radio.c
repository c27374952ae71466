/* speed-radio TEXT SIZE CALLS: CALLS times a text of 16,000 bytes, given to stipeharbor_read where SIZE is 0, else to the radio in fragments of SIZE bytes.
 * TEXT is what follows M0 0 again and again. With it the instructions a byte of docs/SPEED.md are counted: those of some calls less those of none. */
#include <stdio.h>
#include <stdlib.h>
#include <string.h>

#include "stipeharbor.h"

enum { BYTES = 16000, ROOM = 16384 };

static uint8_t text[BYTES], verbs[ROOM];
static float coords[2 * ROOM];

static uint32_t by_radio(size_t size, size_t *answer)
{
    size_t state[STIPEHARBOR_RADIO_WORDS];
    stipeharbor_radio_start(state, STIPEHARBOR_RADIO_WORDS);
    for (size_t at = 0; at < BYTES; at += size) {
        size_t length = BYTES - at < size ? BYTES - at : size;
        stipeharbor_radio_take(state, STIPEHARBOR_RADIO_WORDS, text + at, length, verbs, ROOM, coords, 2 * ROOM);
    }
    return stipeharbor_radio_close(state, STIPEHARBOR_RADIO_WORDS, verbs, ROOM, coords, 2 * ROOM, answer, 3);
}

int main(int count, char **words)
{
    if (count != 4) {
        fprintf(stderr, "usage: speed-radio TEXT SIZE CALLS\n");
        return 2;
    }
    size_t size = strtoul(words[2], NULL, 10), length = strlen(words[1]), at = 4, answer[3] = {0, 0, 0};
    memset(text, ' ', BYTES);
    memcpy(text, "M0 0", 4);
    for (; at + length <= BYTES; at += length) memcpy(text + at, words[1], length);
    uint32_t number = 0;
    for (unsigned long calls = strtoul(words[3], NULL, 10); calls > 0; calls--)
        number = size == 0 ? stipeharbor_read(text, BYTES, verbs, ROOM, coords, 2 * ROOM, answer, 3) : by_radio(size, answer);
    printf("%u %zu %zu %zu\n", (unsigned)number, answer[0], answer[1], answer[2]);
    return 0;
}
