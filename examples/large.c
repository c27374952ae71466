/* A deck of any size that the library takes, in C: path text on standard input; the page of its mesh, or one refusal, on standard output, as examples/stripe.c prints it.
   The mesh is measured first, and just the room that it needs is allocated. The exit status is that of examples/stripe.c.
   usage: large [WIDTH LIMIT JOIN CAP MERGE DETAIL [OFFSET DASH..]]; without options those of ./stripe, and with no DASH no dashes. */
#include <inttypes.h>
#include <stdio.h>
#include <stdlib.h>
#include <string.h>

#include "stipeharbor.h"

/* One more than a list of dashes may have: with it the list is refused, whatever comes after it. */
#define DASH_ROOM (STIPEHARBOR_DASH_COUNT_MOST + 1)

struct options {
    float width, limit, merge, offset, dashes[DASH_ROOM];
    uint32_t join, cap, detail;
    size_t dash_count;
};

struct mesh {
    float *vertices;
    uint32_t *sources;
    uint32_t *triangles;
    size_t answer[3];
};

static int failed(const char *what)
{
    fprintf(stderr, "large: %s\n", what);
    return 2;
}

/* Room for n elements; of none there is no need. */
static void *room(size_t n, size_t size)
{
    void *list = calloc(n ? n : 1, size);
    if (list == NULL)
        exit(failed("there is no memory for the lists"));
    return list;
}

/* A mesh in lists of just its room: what was measured is never refused for want of it. */
static uint32_t stroke(const uint8_t *verbs, const float *coords, const size_t *path, const struct options *o, struct mesh *m)
{
    uint32_t number = stipeharbor_measure(verbs, path[1], coords, path[2], o->width, o->limit, o->join, o->cap, o->merge, o->detail, o->offset, o->dashes, o->dash_count, m->answer, 3);
    if (number != STIPEHARBOR_ACCEPTED)
        return number;
    size_t n = m->answer[1], t = m->answer[2];
    m->vertices = room(5 * n, sizeof *m->vertices);
    m->sources = room(n, sizeof *m->sources);
    m->triangles = room(3 * t, sizeof *m->triangles);
    return stipeharbor_tessellate(verbs, path[1], coords, path[2], o->width, o->limit, o->join, o->cap, o->merge, o->detail, o->offset, o->dashes, o->dash_count, m->vertices, 5 * n, m->sources, n,
                                  m->triangles, 3 * t, m->answer, 3);
}

/* The number of the answer; the lists are as long as the mesh asks for. */
static uint32_t mesh_of(const uint8_t *text, size_t length, const struct options *o, struct mesh *m)
{
    uint8_t *verbs = room(STIPEHARBOR_VERB_LIMIT, 1);
    float *coords = room(2 * STIPEHARBOR_VERB_LIMIT, sizeof *coords);
    size_t path[3];
    uint32_t number = stipeharbor_read(text, length, verbs, STIPEHARBOR_VERB_LIMIT, coords, 2 * STIPEHARBOR_VERB_LIMIT, path, 3);
    memcpy(m->answer, path, sizeof path);
    if (number == STIPEHARBOR_ACCEPTED)
        number = stroke(verbs, coords, path, o, m);
    free(verbs);
    free(coords);
    return number;
}

static void print_mesh(const struct mesh *m)
{
    printf("v %zu\n", m->answer[1]);
    for (size_t i = 0; i < m->answer[1]; i++) {
        uint32_t bits[2];
        memcpy(bits, m->vertices + 5 * i, sizeof bits);
        printf("%08" PRIX32 " %08" PRIX32 "\n", bits[0], bits[1]);
    }
    printf("t %zu\n", m->answer[2]);
    for (size_t i = 0; i < m->answer[2]; i++)
        printf("%" PRIu32 " %" PRIu32 " %" PRIu32 "\n", m->triangles[3 * i], m->triangles[3 * i + 1], m->triangles[3 * i + 2]);
}

static struct options options_of(int argc, char **argv)
{
    struct options o = {.width = 2.0f, .limit = 4.0f, .merge = STIPEHARBOR_MERGE_RANGE_LEAST, .join = STIPEHARBOR_MITER, .cap = STIPEHARBOR_BUTT};
    if (argc > 6) {
        o.width = strtof(argv[1], NULL), o.limit = strtof(argv[2], NULL), o.merge = strtof(argv[5], NULL);
        o.join = (uint32_t)strtoul(argv[3], NULL, 10), o.cap = (uint32_t)strtoul(argv[4], NULL, 10), o.detail = (uint32_t)strtoul(argv[6], NULL, 10);
    }
    if (argc > 7)
        o.offset = strtof(argv[7], NULL);
    for (int i = 8; i < argc && o.dash_count < DASH_ROOM; i++)
        o.dashes[o.dash_count++] = strtof(argv[i], NULL);
    return o;
}

int main(int argc, char **argv)
{
    if (argc > 1 && argc < 7)
        return failed("usage: large [WIDTH LIMIT JOIN CAP MERGE DETAIL [OFFSET DASH..]]");
    struct options o = options_of(argc, argv);
    struct mesh m = {NULL, NULL, NULL, {0, 0, 0}};
    /* One byte more than a text may have: what comes after it changes nothing. */
    uint8_t *text = room(STIPEHARBOR_TEXT_LIMIT + 1, 1);
    size_t length = fread(text, 1, STIPEHARBOR_TEXT_LIMIT + 1, stdin);
    if (ferror(stdin))
        return failed("the input could not be read");
    uint32_t number = mesh_of(text, length, &o, &m);
    if (number == STIPEHARBOR_ACCEPTED)
        print_mesh(&m);
    else
        printf("refused %u %zu\n", (unsigned)number, m.answer[0]);
    free(text);
    free(m.vertices);
    free(m.sources);
    free(m.triangles);
    if (fflush(stdout) != 0 || ferror(stdout))
        return failed("the page could not be written");
    return number == STIPEHARBOR_ACCEPTED ? 0 : 1;
}
