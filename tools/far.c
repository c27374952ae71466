/* Answers the calls that tools/near.c carries to its standard input, by the archive that it is linked with, for this or another machine. tools/adapter makes the calls; tools/machines links and starts it. */
#include "wire.h"

/* No call is lent more sizes than these. */
#define ROOM 32
/* No call has more lists. */
#define LISTS 8

static struct {
    size_t at, bytes;
} lists[LISTS];
static size_t list_count;

static uint64_t take_number(void) {
    message.at += 8;
    return number_at(message.at - 8);
}

static size_t take_size(void) {
    uint64_t number = take_number();
    if (number > SIZE_MAX) fail("a size is greater than any of this machine");
    return (size_t)number;
}

static float take_float(void) {
    uint32_t bits = (uint32_t)take_number();
    float x;
    memcpy(&x, &bits, 4);
    return x;
}

static void *take_list(size_t *length, size_t size) {
    *length = take_number();
    size_t bytes = *length * size, at = message.at;
    if (list_count == LISTS) fail("a call has more lists than expected");
    lists[list_count].at = at;
    lists[list_count++].bytes = bytes;
    message.at = at + guarded(bytes);
    return message.bytes + at;
}

static void guards_hold(void) {
    while (list_count--)
        for (size_t i = lists[list_count].bytes; i < guarded(lists[list_count].bytes); i++)
            if (message.bytes[lists[list_count].at + i] != GUARD) fail("a call wrote behind a list");
    list_count = 0;
}

/* A list of sizes has eight bytes to each on the wire. What the call leaves alone goes back as it came, whatever this machine's size_t can hold; its greatest is the greatest of eight bytes. */
static void narrow_sizes(size_t *sizes, const uint64_t *wide, size_t length) {
    if (length > ROOM) fail("a call is lent more sizes than expected");
    for (size_t i = 0; i < length; i++) sizes[i] = (size_t)wide[i];
    sizes[length] = GUARD;
}

static void widen_sizes(uint64_t *wide, const size_t *sizes, size_t length) {
    if (sizes[length] != GUARD) fail("a call wrote behind a list of sizes");
    for (size_t i = 0; i < length; i++)
        if (sizes[i] != (size_t)wide[i]) wide[i] = sizes[i] < SIZE_MAX ? sizes[i] : UINT64_MAX;
}

#include "calls.h"

int main(void) {
    while (receive_message(0)) {
        uint32_t number = answer_call(number_at(8));
        guards_hold();
        set_number(8, number);
        send_message(1);
    }
    return 0;
}
