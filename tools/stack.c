/* How many bytes of the stack each call takes at most, beyond an empty call: random paths of 1 to 400 points with all joins, caps and details, every second one dashed, and lists to fit. The stack is painted before a call and looked at behind it.
   It is linked statically, or the linker's own work at a first call would be counted. tools/machines runs it; docs/SPEED.md has what it prints. */
#define _XOPEN_SOURCE 600
#include <pthread.h>
#include <stdio.h>
#include <string.h>

#include "stipeharbor.h"

#define STACK (256 * 1024)
#define PAINT 0xA5
#define POINTS 400
/* Every edge is shorter: no more than one cut falls on it. */
#define DASH 1500
/* To a point, to a cut, and to the first point of a closed run, which with dashes comes twice. */
#define MOST (4 * (2 * POINTS + 1) << STIPEHARBOR_DETAIL_MOST)
#define PATHS 300

static unsigned char stack[STACK] __attribute__((aligned(4096)));
static uint8_t verbs[POINTS + 1], text[16 * POINTS], bytes[84 + 50 * MOST];
static float coords[2 * POINTS], vertices[5 * MOST], corners[6 * MOST], values[2];
static uint32_t sources[MOST], triangles[3 * MOST];
static uint16_t narrowed[3 * MOST];
static size_t answer[3], points, text_length, meshed[3];
static uint32_t seed = 28, join, cap, detail;
static float dashes[2], offset;
static size_t dash_count;

/* A linear generator: what matters is that the paths differ. */
static uint32_t next(uint32_t below)
{
    seed = seed * 1664525u + 1013904223u;
    return (seed >> 8) % below;
}

static void draw_path(void)
{
    points = 1 + next(POINTS);
    text_length = 0;
    for (size_t i = 0; i < points; i++) {
        coords[2 * i] = (float)next(1000);
        coords[2 * i + 1] = (float)next(1000);
        verbs[i] = i ? STIPEHARBOR_LINE : STIPEHARBOR_BEGIN;
        text_length += (size_t)sprintf((char *)text + text_length, "%c%d %d", i ? 'L' : 'M', (int)coords[2 * i], (int)coords[2 * i + 1]);
    }
    verbs[points] = next(2) ? STIPEHARBOR_END_OPEN : STIPEHARBOR_END_CLOSED;
    join = next(4);
    cap = next(3);
    detail = next(1 + STIPEHARBOR_DETAIL_MOST);
    dash_count = next(2) ? 2 : 0;
    dashes[0] = (float)(DASH + next(DASH));
    dashes[1] = (float)(DASH + next(DASH));
    offset = (float)next(DASH);
}

static void empty(void) { answer[0] = 0; }
static void tessellate(void)
{
    stipeharbor_tessellate(verbs, points + 1, coords, 2 * points, 20.0f, 4.0f, join, cap, STIPEHARBOR_MERGE_RANGE_LEAST, detail, offset, dashes, dash_count, vertices, 5 * MOST, sources, MOST,
                           triangles, 3 * MOST, answer, 3);
    memcpy(meshed, answer, sizeof meshed);
}
static void tessellate_counted(void)
{
    stipeharbor_tessellate(verbs, points + 1, coords, 2 * points, 20.0f, 4.0f, join, cap, STIPEHARBOR_MERGE_RANGE_LEAST, detail, offset, dashes, dash_count, vertices, 5 * meshed[1], sources, meshed[1],
                           triangles, 3 * meshed[2], answer, 3);
}
static void read(void) { stipeharbor_read(text, text_length, verbs, POINTS + 1, coords, 2 * POINTS, answer, 3); }
static void root(void) { stipeharbor_root(2.0f, values, 2); }
static void normal(void) { stipeharbor_compute_normal(1.0f, 0.0f, 0.6f, 0.8f, values, 2); }
static void stl_write(void) { stipeharbor_stl_write(vertices, 5 * meshed[1], triangles, 3 * meshed[2], bytes, sizeof bytes, answer, 3); }
static void stl_read(void) { stipeharbor_stl_read(bytes, 84 + 50 * meshed[2], corners, 6 * MOST, answer, 3); }
static void narrow(void) { stipeharbor_narrow(triangles, 3 * meshed[2], narrowed, 3 * MOST, answer, 3); }
static void widen(void) { stipeharbor_widen(narrowed, 3 * meshed[2], triangles, 3 * MOST, answer, 3); }
/* So many vertices that all marks are cleared: what is not touched is not seen here. */
static void check(void) { stipeharbor_check(20000, triangles, 3 * meshed[2], answer, 3); }
static void check_attached(void) { stipeharbor_check_attached(20000, triangles, 3 * meshed[2], answer, 3); }

static struct call {
    const char *name;
    void (*run)(void);
    size_t deepest;
} calls[] = {{"", empty, 0}, {"tessellate", tessellate, 0}, {"tessellate with exact room", tessellate_counted, 0}, {"read", read, 0}, {"root", root, 0}, {"compute_normal", normal, 0},
             {"stl_write", stl_write, 0}, {"stl_read", stl_read, 0}, {"narrow", narrow, 0}, {"widen", widen, 0}, {"check", check, 0}, {"check_attached", check_attached, 0}};

static void *on_stack(void *call)
{
    ((struct call *)call)->run();
    return NULL;
}

/* A thread of its own, whose stack is the painted list: what it overwrote is what it took. */
static int measure(struct call *call)
{
    pthread_attr_t how;
    pthread_t thread;
    memset(stack, PAINT, STACK);
    if (pthread_attr_init(&how) != 0 || pthread_attr_setstack(&how, stack, STACK) != 0 || pthread_create(&thread, &how, on_stack, call) != 0 || pthread_join(thread, NULL) != 0)
        return 0;
    pthread_attr_destroy(&how);
    size_t clean = 0;
    while (clean < STACK && stack[clean] == PAINT)
        clean++;
    if (STACK - clean > call->deepest)
        call->deepest = STACK - clean;
    return 1;
}

int main(void)
{
    size_t count = sizeof calls / sizeof *calls;
    for (int path = 0; path < PATHS; path++) {
        draw_path();
        for (size_t i = 0; i < count; i++)
            if (!measure(&calls[i])) {
                fprintf(stderr, "stack: no thread with a stack of its own can be had\n");
                return 2;
            }
    }
    printf("bytes of the stack:");
    for (size_t i = 1; i < count; i++)
        printf("%s %s %zu", i > 1 ? "," : "", calls[i].name, calls[i].deepest - calls[0].deepest);
    printf("\n");
    return 0;
}
