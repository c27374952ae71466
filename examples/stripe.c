/* The program ./stripe in C over the library: path text on standard input; its mesh, or one refusal, on standard output.
   The exit status is 0 for a mesh, 1 for a refusal, and 2 where the input could not be read or the page not be written. */
#include <inttypes.h>
#include <stdio.h>
#include <string.h>

#include "stipeharbor.h"

/* The longest text that the program takes: less than STIPEHARBOR_TEXT_LIMIT, which the library takes. */
#define TEXT_ROOM 16384
#define VERB_ROOM 1024
#define COORD_ROOM 2048
#define VERTEX_ROOM (5 * 1024)
#define SOURCE_ROOM 1024
#define TRIANGLE_ROOM (3 * 1536)

/* One byte more: what comes after it changes nothing. */
static uint8_t text[TEXT_ROOM + 1];
static uint8_t verbs[VERB_ROOM];
static float coords[COORD_ROOM];
static float vertices[VERTEX_ROOM];
static uint32_t sources[SOURCE_ROOM];
static uint32_t triangles[TRIANGLE_ROOM];

static uint32_t bits(float x)
{
    uint32_t b;
    memcpy(&b, &x, sizeof b);
    return b;
}

static int failed(const char *what)
{
    fprintf(stderr, "stripe: %s\n", what);
    return 2;
}

static void print_mesh(size_t vertex_count, size_t triangle_count)
{
    printf("v %zu\n", vertex_count);
    for (size_t i = 0; i < vertex_count; i++)
        printf("%08X %08X\n", (unsigned)bits(vertices[5 * i]), (unsigned)bits(vertices[5 * i + 1]));
    printf("t %zu\n", triangle_count);
    for (size_t i = 0; i < triangle_count; i++)
        printf("%" PRIu32 " %" PRIu32 " %" PRIu32 "\n", triangles[3 * i], triangles[3 * i + 1], triangles[3 * i + 2]);
}

int main(void)
{
    size_t answer[3] = {0, 0, 0};
    size_t length = fread(text, 1, sizeof text, stdin);
    if (ferror(stdin))
        return failed("the input could not be read");
    uint32_t number = STIPEHARBOR_TOO_LONG;
    if (length <= TEXT_ROOM)
        number = stipeharbor_read(text, length, verbs, VERB_ROOM, coords, COORD_ROOM, answer, 3);
    if (number == STIPEHARBOR_ACCEPTED)
        number = stipeharbor_tessellate(verbs, answer[1], coords, answer[2], 2.0f, 4.0f, STIPEHARBOR_MITER, STIPEHARBOR_BUTT,
                                        STIPEHARBOR_MERGE_RANGE_LEAST, 0, 0.0f, NULL, 0, vertices, VERTEX_ROOM, sources, SOURCE_ROOM, triangles, TRIANGLE_ROOM, answer, 3);
    if (number == STIPEHARBOR_ACCEPTED)
        print_mesh(answer[1], answer[2]);
    else
        printf("refused %u %zu\n", (unsigned)number, answer[0]);
    if (fflush(stdout) != 0 || ferror(stdout))
        return failed("the page could not be written");
    return number == STIPEHARBOR_ACCEPTED ? 0 : 1;
}
