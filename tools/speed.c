/* tools/speed.c: strokes one open run of POINTS points REPEAT times, or measures it, for whoever counts instructions or time around it (docs/SPEED.md).
 * usage: speed gentle|sharp|right plenty|exact|measure POINTS REPEAT [DETAIL|- [DASH..]]; the empty loop is REPEAT 0. Edges are 5 long; width 2, merge range 1/128; Miter 4 and Butt, or with a detail Round and Round.
 * With dashes all room is measured first. The cuts are 5 * (POINTS - 1) over the lengths' mean.
 */
#define USAGE "usage: speed gentle|sharp|right plenty|exact|measure POINTS REPEAT [DETAIL|- [DASH..]]\n"
#include "stipeharbor.h"
#include <stdio.h>
#include <stdlib.h>
#include <string.h>
#include <math.h>

enum { POINTS = 65535 };

static uint8_t verbs[POINTS + 1];
static float coords[2 * POINTS];
static float *vertices;
static uint32_t *sources, *triangles;
static uint32_t join = STIPEHARBOR_MITER, cap = STIPEHARBOR_BUTT, detail;
static float dashes[STIPEHARBOR_DASH_COUNT_MOST];
static size_t dash_count;

/* Turns to 17 degrees, to 169, or of 90, to either side as a congruential sequence says. */
static void fill(const char *kind, size_t n) {
    double x = 0, y = 0, direction = 0;
    uint32_t s = 12345;
    for (size_t i = 0; i < n; i++) {
        coords[2 * i] = (float)x, coords[2 * i + 1] = (float)y;
        verbs[i] = i ? STIPEHARBOR_LINE : STIPEHARBOR_BEGIN;
        s = s * 1664525 + 1013904223;
        double most = *kind == 'g' ? 17 : *kind == 's' ? 169 : 90;
        double part = *kind == 'r' ? (s >> 31 ? 1 : -1) : (s >> 8) / 8388608.0 - 1;
        direction += part * most * 3.14159265358979 / 180;
        x += 5 * cos(direction), y += 5 * sin(direction);
    }
    verbs[n] = STIPEHARBOR_END_OPEN;
}

static uint32_t stroke(size_t n, size_t vertex_floats, size_t vertex_sources, size_t triangle_numbers, size_t *answer) {
    return stipeharbor_tessellate(verbs, n + 1, coords, 2 * n, 2, 4, join, cap, STIPEHARBOR_MERGE_RANGE_LEAST, detail, 0, dashes, dash_count, vertices, vertex_floats, sources, vertex_sources, triangles, triangle_numbers,
                                  answer, 3);
}

static uint32_t measure(size_t n, size_t *answer) {
    return stipeharbor_measure(verbs, n + 1, coords, 2 * n, 2, 4, join, cap, STIPEHARBOR_MERGE_RANGE_LEAST, detail, 0, dashes, dash_count, answer, 3);
}

int main(int argc, char **argv) {
    size_t n = argc >= 5 ? strtoul(argv[3], 0, 10) : 0, repeat = argc >= 5 ? strtoul(argv[4], 0, 10) : 0;
    if (argc > 5 && *argv[5] != '-') join = STIPEHARBOR_ROUND_JOIN, cap = STIPEHARBOR_ROUND_CAP, detail = (uint32_t)strtoul(argv[5], 0, 10);
    if (argc > 6 + STIPEHARBOR_DASH_COUNT_MOST || n < 1 || n > POINTS || detail > STIPEHARBOR_DETAIL_MOST) return fprintf(stderr, USAGE), 2;
    for (int i = 6; i < argc; i++) dashes[dash_count++] = strtof(argv[i], 0);
    fill(argv[1], n);
    size_t answer[3], ns = (4 * n) << detail;
    if (dash_count) measure(n, answer), ns = answer[1];
    size_t nv = 5 * ns, nt = 3 * ns;
    vertices = calloc(nv, sizeof *vertices), sources = calloc(ns, sizeof *sources), triangles = calloc(nt, sizeof *triangles);
    if (!vertices || !sources || !triangles) return fprintf(stderr, "speed: there is no memory for the lists\n"), 2;
    uint32_t number = stroke(n, nv, ns, nt, answer);
    if (*argv[2] == 'e') nv = 5 * answer[1], ns = answer[1], nt = 3 * answer[2];
    for (size_t i = 0; i < repeat; i++) number |= *argv[2] == 'm' ? measure(n, answer) : stroke(n, nv, ns, nt, answer);
    printf("%u: %zu vertices, %zu triangles\n", number, answer[1], answer[2]);
    return number != 0;
}
