/* A message between tools/near.c and tools/far.c, two programs for one byte order: its length in bytes and the call's number, then the parameters in their order. A number has eight bytes; a list has its length, its elements and at least
 * eight bytes behind them that no call may touch, up to a multiple of eight. It comes back as the call left it, with the answer in place of the call's number. */
#include "stipeharbor.h"
#include <stdio.h>
#include <stdlib.h>
#include <string.h>
#include <unistd.h>

#define GUARD 0xA5

static struct {
    unsigned char *bytes;
    size_t room;
    /* Where the next parameter stands. */
    size_t at;
} message;

static void fail(const char *what) {
    fprintf(stderr, "wire: %s\n", what);
    exit(3);
}

/* Of a list's elements with the guard behind them. */
static size_t guarded(size_t bytes) { return (bytes / 8 + 2) * 8; }

static void make_room(size_t bytes) {
    if (bytes <= message.room) return;
    message.room = 2 * bytes;
    message.bytes = realloc(message.bytes, message.room);
    if (!message.bytes) fail("there is no memory for a message");
}

static uint64_t number_at(size_t at) {
    uint64_t number;
    memcpy(&number, message.bytes + at, 8);
    return number;
}

static void set_number(size_t at, uint64_t number) { memcpy(message.bytes + at, &number, 8); }

static void send_message(int to) {
    size_t length = number_at(0), sent = 0;
    while (sent < length) {
        ssize_t more = write(to, message.bytes + sent, length - sent);
        if (more <= 0) fail("the other end takes no more");
        sent += more;
    }
    message.at = 16;
}

/* Whether there is one. Either end waits for the other, so nothing comes behind it. */
static int receive_message(int from) {
    size_t length = 8, had = 0;
    make_room(65536);
    while (had < length) {
        ssize_t more = read(from, message.bytes + had, message.room - had);
        if (more <= 0 && had == 0) return 0;
        if (more <= 0) fail("a message is cut short");
        had += more;
        if (had >= 8) make_room(length = number_at(0));
    }
    message.at = 16;
    return 1;
}
