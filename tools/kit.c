/* What the header lets a C caller do at the edges: lists of length 0 that are NULL, and answer lists of every length. tools/kit runs it. */
#include <stdio.h>

#include "stipeharbor.h"

#define UNTOUCHED 77

static int failures;

static void expect(int holds, const char *what)
{
    if (!holds) {
        printf("kit.c: %s\n", what);
        failures++;
    }
}

/* Refusal 6 has two counts: 0, 4 and 2 are written as far as the list goes. */
static void short_answers(void)
{
    static const uint8_t verbs[] = {STIPEHARBOR_BEGIN, STIPEHARBOR_LINE, STIPEHARBOR_END_OPEN};
    static const float coords[] = {0.0f, 1.0f, 2.0f, 1.0f};
    static const size_t told[] = {0, 4, 2};
    for (size_t length = 0; length <= 5; length++) {
        size_t answer[5] = {UNTOUCHED, UNTOUCHED, UNTOUCHED, UNTOUCHED, UNTOUCHED};
        uint32_t number = stipeharbor_tessellate(verbs, 3, coords, 4, 2.0f, 4.0f, STIPEHARBOR_MITER, STIPEHARBOR_BUTT, STIPEHARBOR_MERGE_RANGE_LEAST, 0,
                                                 0.0f, NULL, 0, NULL, 0, NULL, 0, NULL, 0, length ? answer : NULL, length);
        expect(number == STIPEHARBOR_VERTEX_ROOM, "want of room is told whatever the answer's length");
        for (size_t i = 0; i < 5; i++)
            expect(answer[i] == (i < length && i < 3 ? told[i] : UNTOUCHED), "the answer goes as far as its list");
    }
}

/* A vertex's record: twice the endpoint's number, plus one on the negative side. With one record too few it is 6. */
static void sources_told(void)
{
    static const uint8_t verbs[] = {STIPEHARBOR_BEGIN, STIPEHARBOR_LINE, STIPEHARBOR_END_OPEN};
    static const float coords[] = {0.0f, 1.0f, 2.0f, 1.0f};
    float vertices[20];
    uint32_t sources[5] = {9, 9, 9, 9, 9}, triangles[6];
    expect(stipeharbor_tessellate(verbs, 3, coords, 4, 2.0f, 4.0f, STIPEHARBOR_MITER, STIPEHARBOR_BUTT, STIPEHARBOR_MERGE_RANGE_LEAST, 0, 0.0f, NULL, 0, vertices, 20, sources, 3, triangles, 6, NULL, 0)
               == STIPEHARBOR_VERTEX_ROOM && sources[0] == 9,
           "a source list that is too short is 6, and left alone");
    expect(stipeharbor_tessellate(verbs, 3, coords, 4, 2.0f, 4.0f, STIPEHARBOR_MITER, STIPEHARBOR_BUTT, STIPEHARBOR_MERGE_RANGE_LEAST, 0, 0.0f, NULL, 0, vertices, 20, sources, 5, triangles, 6, NULL, 0)
               == STIPEHARBOR_ACCEPTED,
           "with a record more than is needed there is a mesh");
    for (uint32_t i = 0; i < 4; i++)
        expect(STIPEHARBOR_SOURCE_ENDPOINT(sources[i]) == i / 2 && STIPEHARBOR_SOURCE_IS_NEGATIVE(sources[i]) == i % 2, "a record names the endpoint and the side");
    expect(sources[4] == 9, "a record that is not asked for is left alone");
}

/* Width, limit, join, cap, merge range and detail; and with no dashes. */
#define SOLID 2.0f, 4.0f, STIPEHARBOR_MITER, STIPEHARBOR_BUTT, STIPEHARBOR_MERGE_RANGE_LEAST, 0
#define STROKE SOLID, 0.0f, NULL, 0

/* Three runs of which the second draws nothing: measured, written with just that room and a place less, and taken apart again. W-210's traps. */
static void measured(void)
{
    static const uint8_t verbs[] = {0, 1, 2, 0, 2, 0, 1, 2};
    static const float coords[] = {0.0f, 0.0f, 8.0f, 0.0f, 4.0f, 4.0f, 0.0f, 8.0f, 8.0f, 8.0f};
    float vertices[40];
    uint32_t sources[8], triangles[12];
    size_t answer[4] = {UNTOUCHED, UNTOUCHED, UNTOUCHED, UNTOUCHED};
    expect(stipeharbor_measure(verbs, 8, coords, 10, STROKE, answer, 4) == STIPEHARBOR_ACCEPTED && answer[0] == 0 && answer[1] == 8 && answer[2] == 4 && answer[3] == UNTOUCHED,
           "three runs are measured");
    expect(stipeharbor_measure(verbs + 1, 7, coords, 10, STROKE, answer, 3) == STIPEHARBOR_VERB && answer[0] == 0 && answer[1] == 0 && answer[2] == 0, "what is refused has no counts");
    expect(stipeharbor_tessellate(verbs, 8, coords, 10, STROKE, vertices, 39, sources, 8, triangles, 12, NULL, 0) == STIPEHARBOR_VERTEX_ROOM, "a float less is refused");
    expect(stipeharbor_tessellate(verbs, 8, coords, 10, STROKE, vertices, 40, sources, 7, triangles, 12, NULL, 0) == STIPEHARBOR_VERTEX_ROOM, "a source less is refused");
    expect(stipeharbor_tessellate(verbs, 8, coords, 10, STROKE, vertices, 40, sources, 8, triangles, 11, NULL, 0) == STIPEHARBOR_TRIANGLE_ROOM, "a number less is refused");
    expect(stipeharbor_tessellate(verbs, 8, coords, 10, STROKE, vertices, 40, sources, 8, triangles, 12, NULL, 0) == STIPEHARBOR_ACCEPTED, "the measured room does");
    expect(stipeharbor_run_part(verbs, 8, coords, 10, STROKE, 2, vertices, 40, answer, 3) == STIPEHARBOR_ACCEPTED && answer[0] == 0 && answer[1] == 20 && answer[2] == 20 && vertices[20] == 0.0f
               && vertices[21] == 9.0f,
           "the third run's part is the second half");
    expect(stipeharbor_run_part(verbs, 8, coords, 10, STROKE, 1, vertices, 40, answer, 3) == STIPEHARBOR_ACCEPTED && answer[1] == 0 && answer[2] == 0, "the second run's part is empty");
    expect(stipeharbor_run_part(verbs, 8, coords, 10, STROKE, 3, vertices, 40, answer, 3) == STIPEHARBOR_NO_RUN && answer[1] == 0 && answer[2] == 0, "there is no fourth run");
    expect(stipeharbor_run_part(verbs, 8, coords, 10, STROKE, 9, vertices, 39, NULL, 0) == STIPEHARBOR_VERTEX_ROOM, "want of room is told before a number that no run has");
    expect(stipeharbor_run_part(NULL, 0, NULL, 0, STROKE, 0, NULL, 0, NULL, 0) == STIPEHARBOR_NO_RUN && stipeharbor_measure(NULL, 0, NULL, 0, STROKE, NULL, 0) == STIPEHARBOR_ACCEPTED, "no verbs have no run");
}

static void nulls(void)
{
    expect(stipeharbor_read(NULL, 0, NULL, 0, NULL, 0, NULL, 0) == STIPEHARBOR_ACCEPTED, "the empty text is a path");
    expect(stipeharbor_tessellate(NULL, 0, NULL, 0, 2.0f, 4.0f, STIPEHARBOR_BEVEL, STIPEHARBOR_SQUARE, STIPEHARBOR_MERGE_RANGE_MOST, STIPEHARBOR_DETAIL_MOST, STIPEHARBOR_DASH_OFFSET_MOST, NULL, 0, NULL, 0, NULL, 0,
                                  NULL, 0, NULL, 0)
               == STIPEHARBOR_ACCEPTED,
           "no verbs are a path");
    expect(stipeharbor_root(-1.0f, NULL, 0) == STIPEHARBOR_NO_ROOT, "a negative has no root");
    expect(stipeharbor_compute_normal(3.0f, 0.0f, 1.0f, 0.0f, NULL, 0) == STIPEHARBOR_COORDINATE, "a component above 2 is refused");
}

static void values(void)
{
    float value[2] = {UNTOUCHED, UNTOUCHED}, normal[3] = {UNTOUCHED, UNTOUCHED, UNTOUCHED};
    expect(stipeharbor_root(4.0f, value, 2) == STIPEHARBOR_ACCEPTED && value[0] == 2.0f && value[1] == UNTOUCHED, "the root of 4 is 2");
    expect(stipeharbor_compute_normal(1.0f, 0.0f, 1.0f, 0.0f, normal, 1) == STIPEHARBOR_ACCEPTED && normal[0] == 0.0f && normal[1] == UNTOUCHED,
           "a list of one gets x alone");
    expect(stipeharbor_compute_normal(1.0f, 0.0f, 1.0f, 0.0f, normal, 3) == STIPEHARBOR_ACCEPTED && normal[1] == 1.0f && normal[2] == UNTOUCHED,
           "a list of three gets x and y");
    expect(stipeharbor_root(-1.0f, value, 2) == STIPEHARBOR_NO_ROOT && value[0] == 0.0f, "a refusal has the value +0");
}

/* The drawing of a join in the header, number for number, at exact room; and x and y are the point and the normal times half the width. */
static void drawing(void)
{
    static const uint8_t verbs[] = {STIPEHARBOR_BEGIN, STIPEHARBOR_LINE, STIPEHARBOR_LINE, STIPEHARBOR_END_OPEN};
    static const float coords[] = {0.0f, 0.0f, 4.0f, 0.0f, 4.0f, 4.0f};
    static const float told[] = {0, 1, 0, 1, 0, 0, -1, 0, -1, 0, 3, 1, -1, 1, 4, 5, -1, 1, -1, 4, 3, 4, -1, 0, 8, 5, 4, 1, 0, 8};
    static const uint32_t corners[] = {1, 0, 2, 1, 2, 3, 3, 2, 4, 3, 4, 5};
    float vertices[30];
    uint32_t sources[6], triangles[12];
    size_t answer[3];
    uint32_t number = stipeharbor_tessellate(verbs, 4, coords, 6, 2.0f, 4.0f, STIPEHARBOR_MITER, STIPEHARBOR_BUTT, STIPEHARBOR_MERGE_RANGE_LEAST, 0, 0.0f, NULL, 0, vertices, 30, sources, 6,
                                             triangles, 12, answer, 3);
    expect(number == STIPEHARBOR_ACCEPTED && answer[1] == 6 && answer[2] == 4, "the header's join has six vertices and four triangles");
    for (size_t i = 0; i < 30; i++)
        expect(vertices[i] == told[i], "the header's join has the vertices that it draws");
    for (size_t i = 0; i < 12; i++)
        expect(triangles[i] == corners[i], "the header's join has the triangles that it names");
    for (size_t i = 0; i < 6; i++)
        expect(sources[i] == i, "the header's join has the sources that it names");
    for (size_t i = 0; i < 6; i++)
        expect(vertices[5 * i] == coords[2 * (i / 2)] + vertices[5 * i + 2] && vertices[5 * i + 1] == coords[2 * (i / 2) + 1] + vertices[5 * i + 3], "a place is the point and the normal times half the width");
}

/* W-209's: the caps of a line, arcs numbered last, the outward vertices positive; a detail out of range, whatever is round. */
static void arcs(void)
{
    static const uint8_t verbs[] = {STIPEHARBOR_BEGIN, STIPEHARBOR_LINE, STIPEHARBOR_END_OPEN};
    static const float coords[] = {0.0f, 0.0f, 8.0f, 0.0f};
    static const uint32_t told[] = {0, 1, 2, 3, 0, 1, 0, 2, 2, 2}, corners[] = {1, 0, 2, 1, 2, 3, 1, 4, 0, 1, 5, 4, 4, 6, 0, 2, 7, 3, 2, 8, 7, 7, 9, 3};
    float vertices[50];
    uint32_t sources[10], triangles[24];
    size_t answer[3];
    uint32_t number = stipeharbor_tessellate(verbs, 3, coords, 4, 2.0f, 4.0f, STIPEHARBOR_MITER, STIPEHARBOR_ROUND_CAP, STIPEHARBOR_MERGE_RANGE_LEAST, 1, 0.0f, NULL, 0, vertices, 50, sources, 10,
                                             triangles, 24, answer, 3);
    expect(number == STIPEHARBOR_ACCEPTED && answer[1] == 10 && answer[2] == 8 && vertices[20] == -1.0f && vertices[35] == 9.0f, "a line with round caps has ten vertices and eight triangles");
    for (size_t i = 0; i < 10; i++)
        expect(sources[i] == told[i], "an arc's vertices have the side of its first");
    for (size_t i = 0; i < 24; i++)
        expect(triangles[i] == corners[i], "the start cap's arcs follow the first edge, the end cap's the last");
    expect(stipeharbor_measure(verbs, 3, coords, 4, 2.0f, 4.0f, STIPEHARBOR_ROUND_JOIN, STIPEHARBOR_BUTT, STIPEHARBOR_MERGE_RANGE_LEAST, STIPEHARBOR_DETAIL_MOST, 0.0f, NULL, 0, answer, 3) == STIPEHARBOR_ACCEPTED
               && answer[1] == 4,
           "a line has no corner to round");
    expect(stipeharbor_measure(verbs, 3, coords, 4, 2.0f, 4.0f, STIPEHARBOR_MITER, STIPEHARBOR_BUTT, STIPEHARBOR_MERGE_RANGE_LEAST, STIPEHARBOR_DETAIL_MOST + 1, 0.0f, NULL, 0, answer, 3) == STIPEHARBOR_OUT_OF_RANGE,
           "a detail out of range is refused where nothing is round");
}

/* W-213's: a lane of 8 in dashes of 3, each with its advancement from 0 and cut behind its begin; an offset; a closed run that no cut reaches; both sides of 26, and of its place in the order; a bad list or offset. */
static void dashes(void)
{
    static const uint8_t verbs[] = {STIPEHARBOR_BEGIN, STIPEHARBOR_LINE, STIPEHARBOR_END_OPEN}, closed[] = {STIPEHARBOR_BEGIN, STIPEHARBOR_LINE, STIPEHARBOR_LINE, STIPEHARBOR_END_CLOSED};
    static const float coords[] = {0.0f, 0.0f, 8.0f, 0.0f}, corner[] = {0.0f, 0.0f, 4.0f, 0.0f, 4.0f, 3.0f}, three[] = {3.0f, 5.0f}, around[] = {16.0f, 0.25f};
    static const float ends[] = {0, 3, 6, 8}, advancements[] = {0, 3, 0, 2};
    static const uint32_t told[] = {0, 1, 0, 1, 0, 1, 2, 3};
    float vertices[40], lane[] = {-16384.0f, 0.0f, 0.25f, 0.0f}, quarter = STIPEHARBOR_DASH_LEAST, many[STIPEHARBOR_DASH_COUNT_MOST + 1];
    uint32_t sources[8], triangles[12];
    size_t answer[3];
    expect(stipeharbor_tessellate(verbs, 3, coords, 4, SOLID, 0.0f, three, 1, vertices, 40, sources, 8, triangles, 12, answer, 3) == STIPEHARBOR_ACCEPTED && answer[1] == 8 && answer[2] == 4, "dashes of 3 in 8 are two");
    for (size_t i = 0; i < 8; i++)
        expect(vertices[5 * i] == ends[i / 2] && vertices[5 * i + 4] == advancements[i / 2] && sources[i] == told[i], "a dash is an open run from 0, and a cut has the number of its edge's start");
    expect(stipeharbor_tessellate(verbs, 3, coords, 4, SOLID, 3.0f, three, 2, vertices, 20, sources, 4, triangles, 6, NULL, 0) == STIPEHARBOR_ACCEPTED && vertices[0] == 5.0f, "offset 3 of 3 5 begins with the gap");
    expect(stipeharbor_run_part(verbs, 3, coords, 4, SOLID, 0.0f, three, 1, 0, vertices, 40, answer, 3) == STIPEHARBOR_ACCEPTED && answer[1] == 0 && answer[2] == 40, "a run's part has all its dashes");
    expect(stipeharbor_measure(closed, 4, corner, 6, SOLID, 0.0f, around, 2, answer, 3) == STIPEHARBOR_ACCEPTED && answer[1] == 8 && answer[2] == 6, "a closed run that no cut reaches is not joined");
    expect(stipeharbor_measure(verbs, 3, lane, 4, SOLID, 0.0f, &quarter, 1, answer, 3) == STIPEHARBOR_ACCEPTED && answer[1] == 2 * STIPEHARBOR_CUT_LIMIT + 4, "65,536 cuts are taken");
    lane[2] = 0.5f;
    expect(stipeharbor_tessellate(verbs, 3, lane, 4, SOLID, 0.0f, &quarter, 1, NULL, 0, NULL, 0, NULL, 0, answer, 3) == STIPEHARBOR_TOO_MANY_CUTS && answer[0] == 0 && answer[1] == 0, "one more is told before want of room");
    lane[3] = 32769.0f;
    expect(stipeharbor_measure(verbs, 3, lane, 4, SOLID, 0.0f, &quarter, 1, answer, 3) == STIPEHARBOR_COORDINATE && answer[0] == 3, "and behind 4");
    for (size_t i = 0; i <= STIPEHARBOR_DASH_COUNT_MOST; i++)
        many[i] = STIPEHARBOR_DASH_MOST;
    expect(stipeharbor_measure(verbs, 3, coords, 4, SOLID, STIPEHARBOR_DASH_OFFSET_MOST, many, STIPEHARBOR_DASH_COUNT_MOST, answer, 3) == STIPEHARBOR_ACCEPTED, "the most lengths and the greatest are a list");
    expect(stipeharbor_measure(verbs, 3, coords, 4, SOLID, 0.0f, many, STIPEHARBOR_DASH_COUNT_MOST + 1, answer, 3) == STIPEHARBOR_OUT_OF_RANGE, "one more is none");
    expect(stipeharbor_measure(verbs, 3, coords, 4, SOLID, -1.0f, NULL, 0, answer, 3) == STIPEHARBOR_OUT_OF_RANGE, "an offset out of range is refused where there are no dashes");
}

/* A file of one triangle, its count and its second corner's x looked at, and read back; refusals 14 to 17, each changing nothing. */
static void stl(void)
{
    static const float vertices[] = {0.0f, -0.0f, 9.0f, 9.0f, 9.0f, 1.0f, 2.0f, 9.0f, 9.0f, 9.0f};
    static const uint32_t triangles[] = {0, 1, 0, 1, 0, 2};
    uint8_t bytes[185];
    float corners[7] = {UNTOUCHED, UNTOUCHED, UNTOUCHED, UNTOUCHED, UNTOUCHED, UNTOUCHED, UNTOUCHED};
    size_t answer[3] = {UNTOUCHED, UNTOUCHED, UNTOUCHED};
    for (size_t i = 0; i < sizeof bytes; i++)
        bytes[i] = UNTOUCHED;
    expect(stipeharbor_stl_write(vertices, 10, triangles, 3, bytes, 133, answer, 1) == STIPEHARBOR_FILE_ROOM && answer[0] == 0 && answer[1] == UNTOUCHED && bytes[0] == UNTOUCHED,
           "133 bytes are too few");
    expect(stipeharbor_stl_write(vertices, 10, triangles, 6, bytes, 185, answer, 3) == STIPEHARBOR_CORNER && answer[0] == 1 && answer[1] == 0 && bytes[0] == UNTOUCHED,
           "the second triangle has a number without a vertex");
    expect(stipeharbor_stl_write(vertices, 10, triangles, 3, bytes, 185, answer, 3) == STIPEHARBOR_ACCEPTED && answer[0] == 0 && answer[1] == 134 && answer[2] == UNTOUCHED,
           "a triangle is a file of 134 bytes");
    expect(bytes[0] == 0 && bytes[80] == 1 && bytes[83] == 0 && bytes[110] == 0x80 && bytes[111] == 0x3F && bytes[133] == 0 && bytes[134] == UNTOUCHED, "the bytes of the file");
    expect(stipeharbor_stl_read(bytes, 134, corners, 5, answer, 3) == STIPEHARBOR_LIST_ROOM && answer[1] == 0 && corners[0] == UNTOUCHED, "five floats are too few");
    expect(stipeharbor_stl_read(bytes, 135, corners, 7, NULL, 0) == STIPEHARBOR_FILE_LENGTH && corners[0] == UNTOUCHED, "a byte too many");
    expect(stipeharbor_stl_read(bytes, 134, corners, 7, answer, 3) == STIPEHARBOR_ACCEPTED && answer[1] == 6 && corners[2] == 1.0f && corners[3] == 2.0f && corners[6] == UNTOUCHED,
           "the corners are read back");
    bytes[104] = 1;
    expect(stipeharbor_stl_read(bytes, 134, corners, 5, answer, 3) == STIPEHARBOR_CORNER && answer[0] == 0, "a z that is not zero is told before want of room");
    expect(stipeharbor_stl_write(NULL, 0, NULL, 0, bytes, 84, NULL, 0) == STIPEHARBOR_ACCEPTED && stipeharbor_stl_read(bytes, 84, NULL, 0, NULL, 0) == STIPEHARBOR_ACCEPTED,
           "no triangles are a file");
    expect(stipeharbor_stl_read(NULL, 0, NULL, 0, NULL, 0) == STIPEHARBOR_FILE_LENGTH, "no bytes are none");
}

/* A stored list there and back; refusals 17 and 18, each changing nothing. */
static void widths(void)
{
    static const uint16_t stored[] = {0, 1, 65535};
    static const uint32_t large[] = {1, 65536};
    uint32_t wide[4] = {UNTOUCHED, UNTOUCHED, UNTOUCHED, UNTOUCHED};
    uint16_t narrowed[4] = {UNTOUCHED, UNTOUCHED, UNTOUCHED, UNTOUCHED};
    size_t answer[3] = {UNTOUCHED, UNTOUCHED, UNTOUCHED};
    expect(stipeharbor_widen(stored, 3, wide, 2, answer, 3) == STIPEHARBOR_LIST_ROOM && answer[1] == 0 && answer[2] == UNTOUCHED && wide[0] == UNTOUCHED, "two places are too few to widen into");
    expect(stipeharbor_widen(stored, 3, wide, 4, answer, 3) == STIPEHARBOR_ACCEPTED && answer[1] == 3 && wide[2] == STIPEHARBOR_NARROW_MOST && wide[3] == UNTOUCHED, "three numbers are widened");
    expect(stipeharbor_narrow(large, 2, narrowed, 1, answer, 3) == STIPEHARBOR_LIST_ROOM && answer[0] == 0, "want of room is told before a number too large");
    expect(stipeharbor_narrow(large, 2, narrowed, 4, answer, 3) == STIPEHARBOR_WIDE_NUMBER && answer[0] == 1 && answer[1] == 0 && narrowed[0] == UNTOUCHED, "the second number is too large");
    expect(stipeharbor_narrow(wide, 3, narrowed, 4, answer, 3) == STIPEHARBOR_ACCEPTED && answer[1] == 3 && narrowed[2] == stored[2] && narrowed[3] == UNTOUCHED, "what was widened is narrowed");
    expect(stipeharbor_widen(NULL, 0, NULL, 0, NULL, 0) == STIPEHARBOR_ACCEPTED && stipeharbor_narrow(NULL, 0, NULL, 0, NULL, 0) == STIPEHARBOR_ACCEPTED, "no numbers are a list");
}

/* W-211's traps, the place as far as its list goes. */
static void lists(void)
{
    static const uint32_t two[] = {0, 1, 2, 2, 1, 0}, large[] = {0, 0, 9};
    size_t answer[2] = {UNTOUCHED, UNTOUCHED};
    expect(stipeharbor_check(0, NULL, 0, NULL, 0) == STIPEHARBOR_ACCEPTED, "no triangles are a mesh of no vertices");
    expect(stipeharbor_check(SIZE_MAX, NULL, 0, answer, 2) == STIPEHARBOR_VERTEX_UNNAMED && answer[0] == 0 && answer[1] == UNTOUCHED, "of the most vertices the first is unnamed");
    expect(stipeharbor_check(9, two, 4, answer, 1) == STIPEHARBOR_LIST_LENGTH && answer[0] == 0, "four numbers are no triangles");
    expect(stipeharbor_check(3, large, 3, answer, 1) == STIPEHARBOR_NUMBER_TOO_LARGE && answer[0] == 2, "too large comes before two alike");
    expect(stipeharbor_check(10, large, 3, answer, 1) == STIPEHARBOR_TWO_ALIKE && answer[0] == 0, "two alike come before a vertex unnamed");
    expect(stipeharbor_check_attached(4, two, 3, answer, 1) == STIPEHARBOR_VERTEX_UNNAMED && answer[0] == 3, "the second question asks the first");
    expect(stipeharbor_check(3, two, 6, answer, 1) == STIPEHARBOR_ACCEPTED && answer[0] == 0, "a triangle twice is sound");
    expect(stipeharbor_check_attached(3, two, 6, answer, 1) == STIPEHARBOR_NOT_ATTACHED && answer[0] == 1, "and shares three, not two");
}

/* W-212's: a number broken across two fragments, a second close, words that are no state's. */
static void radio(void)
{
    size_t state[STIPEHARBOR_RADIO_WORDS], answer[3] = {UNTOUCHED, UNTOUCHED, UNTOUCHED};
    uint8_t verbs[3] = {9, 9, 9};
    float coords[3] = {9, 9, 9};
    expect(stipeharbor_radio_start(state, STIPEHARBOR_RADIO_WORDS - 1) == STIPEHARBOR_AFTER_CLOSE, "a word too few holds no state");
    expect(stipeharbor_radio_start(state, STIPEHARBOR_RADIO_WORDS) == STIPEHARBOR_ACCEPTED, "a text is started");
    expect(stipeharbor_radio_take(state, STIPEHARBOR_RADIO_WORDS, (const uint8_t *)"M1", 2, verbs, 3, coords, 3) == STIPEHARBOR_ACCEPTED && verbs[0] == 9, "a number goes on");
    expect(stipeharbor_radio_take(state, STIPEHARBOR_RADIO_WORDS, (const uint8_t *)"2 3", 3, verbs, 3, coords, 3) == STIPEHARBOR_ACCEPTED, "in the next fragment");
    expect(stipeharbor_radio_close(state, STIPEHARBOR_RADIO_WORDS, verbs, 3, coords, 3, answer, 3) == STIPEHARBOR_ACCEPTED && answer[1] == 2 && answer[2] == 2 && coords[0] == 12 && coords[1] == 3 && coords[2] == 9 && verbs[1] == STIPEHARBOR_END_OPEN && verbs[2] == 9, "and is one");
    expect(stipeharbor_radio_close(state, STIPEHARBOR_RADIO_WORDS, verbs, 3, coords, 3, answer, 3) == STIPEHARBOR_AFTER_CLOSE && answer[1] == 2, "a second close changes nothing");
    state[0] = STIPEHARBOR_RADIO_WORDS;
    expect(stipeharbor_radio_take(state, STIPEHARBOR_RADIO_WORDS, NULL, 0, NULL, 0, NULL, 0) == STIPEHARBOR_AFTER_CLOSE && stipeharbor_radio_take(NULL, 0, NULL, 0, NULL, 0, NULL, 0) == STIPEHARBOR_AFTER_CLOSE, "words that are no state's count as closed");
}

int main(void)
{
    short_answers();
    sources_told();
    measured();
    nulls();
    values();
    drawing();
    arcs();
    dashes();
    stl();
    widths();
    lists();
    radio();
    return failures != 0;
}
