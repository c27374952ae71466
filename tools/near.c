/* The calls of include/stipeharbor.h, as an archive has them, each carried to the program of tools/far.c: STIPEHARBOR_FAR is the command that starts it, for another machine's program with its emulator. So the code for that machine alone is
 * emulated, and not the cases or what judges the answers. tools/adapter makes the calls; tools/machines links them. */
#include "wire.h"

static int to_far, from_far = -1;

static void start(void) {
    int there[2], back[2];
    const char *command = getenv("STIPEHARBOR_FAR");
    if (!command) fail("STIPEHARBOR_FAR is not set");
    if (pipe(there) || pipe(back)) fail("there is no pipe");
    pid_t child = fork();
    if (child < 0) fail("there is no process for the other end");
    if (child == 0) {
        dup2(there[0], 0);
        dup2(back[1], 1);
        close(there[1]);
        close(back[0]);
        execl("/bin/sh", "sh", "-c", command, (char *)0);
        fail("the other end cannot be started");
    }
    close(there[0]);
    close(back[1]);
    to_far = there[1];
    from_far = back[0];
}

static void begin(uint64_t call) {
    if (from_far < 0) start();
    make_room(16);
    message.at = 16;
    set_number(8, call);
}

static void put_number(uint64_t number) {
    make_room(message.at + 8);
    set_number(message.at, number);
    message.at += 8;
}

static void put_float(float x) {
    uint32_t bits;
    memcpy(&bits, &x, 4);
    put_number(bits);
}

/* Where its elements stand. */
static size_t put_list(const void *list, size_t length, size_t size) {
    size_t bytes = length * size, at = message.at + 8;
    put_number(length);
    make_room(at + guarded(bytes));
    if (bytes) memcpy(message.bytes + at, list, bytes);
    memset(message.bytes + at + bytes, GUARD, guarded(bytes) - bytes);
    message.at = at + guarded(bytes);
    return at;
}

static void carry(void) {
    set_number(0, message.at);
    send_message(to_far);
    if (!receive_message(from_far)) fail("the other end has ended");
}

static void take_list(void *list, size_t at, size_t bytes) {
    if (bytes) memcpy(list, message.bytes + at, bytes);
}

/* A list that is only read. */
static void keep_list(const void *list, size_t at, size_t bytes) {
    if (bytes && memcmp(list, message.bytes + at, bytes)) fail("a list that was not lent is changed");
}

#include "calls.h"
