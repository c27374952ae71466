/* tools/speed-check.c: checks an index list of TRIANGLES triangles REPEAT times, for whoever counts instructions or time around it (docs/SPEED.md).
 * usage: speed-check check|attached ours|slow TRIANGLES REPEAT; the empty loop is REPEAT 0. `ours` is numbered as the mesh of an open run of single vertices is; `slow` is half such a
 * strip, then a triangle on each of its longer edges, in order, so that each is attached to one far back. */
#include "stipeharbor.h"
#include <stdio.h>
#include <stdlib.h>

enum { TRIANGLES = 400000 };

static uint32_t list[3 * TRIANGLES];

static void put(size_t at, size_t a, size_t b, size_t c) {
    list[3 * at] = (uint32_t)a, list[3 * at + 1] = (uint32_t)b, list[3 * at + 2] = (uint32_t)c;
}

/* How many vertices the list has. */
static size_t fill(const char *kind, size_t n) {
    size_t strip = *kind == 's' ? n - n / 2 : n, count = strip + 2;
    for (size_t i = 0; i < strip; i++)
        if (i % 2) put(i, i, i + 1, i + 2);
        else put(i, i + 1, i, i + 2);
    for (size_t i = strip; i < n; i++) put(i, i - strip, i - strip + 2, count++);
    return count;
}

int main(int argc, char **argv) {
    size_t n = argc == 5 ? strtoul(argv[3], 0, 10) : 0, repeat = argc == 5 ? strtoul(argv[4], 0, 10) : 0;
    if (n < 1 || n > TRIANGLES) return fprintf(stderr, "usage: speed-check check|attached ours|slow TRIANGLES REPEAT\n"), 2;
    size_t count = fill(argv[2], n), place[1] = {0};
    uint32_t number = 0;
    for (size_t i = 0; i < repeat; i++)
        number |= *argv[1] == 'c' ? stipeharbor_check(count, list, 3 * n, place, 1) : stipeharbor_check_attached(count, list, 3 * n, place, 1);
    printf("%u at %zu: %zu vertices, %zu triangles\n", number, place[0], count, n);
    return number != 0;
}
