/* Stipeharbor: a path in, the mesh of its stripe out, or one refusal. Every call is proved (docs/PROVED.md); crates/stipeharbor/out/libstipeharbor.a has them.
 *
 * A list is a pointer and a length, and every length counts elements, not bytes. What a caller keeps to, since no proof reaches C:
 * - the pointer is aligned for its type and valid for as many elements; of a list of length 0 it is not used, and may be NULL;
 * - a list that a call may write shares no memory with another list of that call, and nobody else touches a lent list while the call runs.
 * Nothing else is asked: any bytes, any floats and any lengths have an answer. No call allocates, keeps a pointer or uses a global; of the C library the archive
 * needs memcpy and memset at most.
 *
 * Freestanding use needs <stddef.h> and <stdint.h> alone, which every compiler has, and these symbols of the archive for each machine (tools/native prints them): memcpy and memset on 64-bit machines; memcpy, memset and
 * __aeabi_uldivmod on 32-bit Arm Linux; __aeabi_memcpy, __aeabi_memcpy4, __aeabi_memcpy8, __aeabi_memmove, __aeabi_memclr, __aeabi_memclr4, __aeabi_memclr8 and __aeabi_uldivmod on a bare Cortex-M, which libgcc with newlib, or compiler-rt, have. Floats are to be rounded to nearest
 * and subnormals kept, as a processor does from its start. In C++ the calls are the same, by the extern "C" below.
 *
 * Each call returns 0 or the number of one refusal. A refusal leaves every list as it was, but for the last one, the answer's own (and those of the radio, where its calls say so). That one is written as
 * far as it goes: one that is too short gets the first numbers, and a longer one keeps what it has behind them.
 */
#ifndef STIPEHARBOR_H
#define STIPEHARBOR_H

#include <stddef.h>
#include <stdint.h>

/* The version of this header and of the archive that goes with it. Before 1.0.0 MINOR grows where a program that keeps to this header has to be looked at again: a call has other parameters, a number another
 * meaning, an input another answer; PATCH where something is only added. From 1.0.0 on MAJOR and MINOR do so. CHANGELOG.md says what changed. */
#define STIPEHARBOR_VERSION_MAJOR 0
#define STIPEHARBOR_VERSION_MINOR 12
#define STIPEHARBOR_VERSION_PATCH 0

#ifdef __cplusplus
extern "C" {
#endif

/* What a call returns. Where more than one refusal would fit, the least number is given; but 26 comes directly behind 4. */
enum stipeharbor_number {
    STIPEHARBOR_ACCEPTED = 0,
    STIPEHARBOR_OUT_OF_RANGE = 1,   /* an option is outside its range, or NaN; or there are too many dashes, or one of them is outside its range, or NaN */
    STIPEHARBOR_TOO_MANY_VERBS = 2, /* more than STIPEHARBOR_VERB_LIMIT verbs */
    STIPEHARBOR_VERB = 3,           /* the verb at the place is unknown or misplaced; or, at the number of verbs, a run has no end or the coordinates are not two to each begin or line */
    STIPEHARBOR_COORDINATE = 4,     /* the coordinate at the place is not finite or too large */
    /* 5 is retired: no path ever earned it. It is not given, and gets no other meaning. */
    STIPEHARBOR_VERTEX_ROOM = 6,    /* too few vertex places, in the vertex list or in that of sources; the counts say how many are needed */
    STIPEHARBOR_TRIANGLE_ROOM = 7,  /* too few triangle places; the counts say how many are needed */
    STIPEHARBOR_TOO_LONG = 8,       /* the text has more than STIPEHARBOR_TEXT_LIMIT bytes */
    STIPEHARBOR_OUT_OF_FORM = 9,    /* from the byte at the place on, or at its end, the text is no path text */
    STIPEHARBOR_TOO_LARGE = 10,     /* the number that begins at the place, or the coordinate that it leads to, is beyond STIPEHARBOR_COORDINATE_LIMIT in size */
    STIPEHARBOR_NO_ROOM = 11,       /* the verb list or the coordinate list is too short, or the path has more than STIPEHARBOR_VERB_LIMIT verbs */
    STIPEHARBOR_NO_ROOT = 13,       /* the root of a negative, -0, infinite or NaN */
    STIPEHARBOR_FILE_ROOM = 14,     /* the byte list is too short for the STL file */
    STIPEHARBOR_FILE_LENGTH = 15,   /* the STL file is not as long as its count of triangles says */
    STIPEHARBOR_CORNER = 16,        /* the triangle at the place has a corner that is not finite, a z that is not zero or, in writing, a number that has no vertex */
    STIPEHARBOR_LIST_ROOM = 17,     /* the list is too short for the STL file's corners, or to widen or narrow into */
    STIPEHARBOR_WIDE_NUMBER = 18,   /* the number at the place is above STIPEHARBOR_NARROW_MOST */
    STIPEHARBOR_NO_RUN = 19,        /* the path has no run of that number */
    STIPEHARBOR_LIST_LENGTH = 20,   /* the index list's length is no multiple of three */
    STIPEHARBOR_NUMBER_TOO_LARGE = 21, /* the number at the place of the index list is not below the vertex count */
    STIPEHARBOR_TWO_ALIKE = 22,     /* the triangle at the place names a vertex twice */
    STIPEHARBOR_VERTEX_UNNAMED = 23, /* the vertex at the place is named by no triangle; it is the smallest */
    STIPEHARBOR_NOT_ATTACHED = 24,  /* the triangle at the place shares exactly two vertices with none before it */
    STIPEHARBOR_AFTER_CLOSE = 25,   /* a call of the radio behind its closing call, with no new start */
    STIPEHARBOR_TOO_MANY_CUTS = 26  /* the dashes cut the path at more than STIPEHARBOR_CUT_LIMIT points in all */
};

/* Verbs. A begin and a line have two coordinates each. */
#define STIPEHARBOR_BEGIN 0
#define STIPEHARBOR_LINE 1
#define STIPEHARBOR_END_OPEN 2
#define STIPEHARBOR_END_CLOSED 3

/* Line joins: a tip, or beyond the limit a bevel; a tip, or beyond the limit one that is cut off there; the corner cut straight across; an arc about the point.
 * A path that runs back along itself has no tip: it is beyond every limit. */
#define STIPEHARBOR_MITER 0
#define STIPEHARBOR_MITER_CLIP 1
#define STIPEHARBOR_BEVEL 2
#define STIPEHARBOR_ROUND_JOIN 3

/* Line caps: the end at the point, half a width beyond it, or half a circle about it. */
#define STIPEHARBOR_BUTT 0
#define STIPEHARBOR_SQUARE 1
#define STIPEHARBOR_ROUND_CAP 2

/* Limits, all of them included. */
#define STIPEHARBOR_VERB_LIMIT 65536
#define STIPEHARBOR_TEXT_LIMIT 1048576
#define STIPEHARBOR_NARROW_MOST 65535
/* How many words the radio's state is. */
#define STIPEHARBOR_RADIO_WORDS 21
#define STIPEHARBOR_COORDINATE_LIMIT 32768.0f
#define STIPEHARBOR_WIDTH_LEAST 0.00390625f
#define STIPEHARBOR_WIDTH_MOST 16384.0f
#define STIPEHARBOR_MITER_LIMIT_LEAST 1.0f
#define STIPEHARBOR_MITER_LIMIT_MOST 1024.0f
#define STIPEHARBOR_MERGE_RANGE_LEAST 0.0078125f
#define STIPEHARBOR_MERGE_RANGE_MOST 1.0f
/* How fine an arc may be; the least is 0. */
#define STIPEHARBOR_DETAIL_MOST 6
/* How many lengths a list of dashes may have, how long each may be, and how large the offset; its least is 0. */
#define STIPEHARBOR_DASH_COUNT_MOST 16
#define STIPEHARBOR_DASH_LEAST 0.25f
#define STIPEHARBOR_DASH_MOST 32768.0f
#define STIPEHARBOR_DASH_OFFSET_MOST 32768.0f
/* How many cuts dashes may take in a path, its runs together, whether or not anything is drawn there. */
#define STIPEHARBOR_CUT_LIMIT 65536

/* What a renderer gets, by one join: the path (0,0), (4,0), (4,4), marked +, of width 2, with Miter and Butt; y points up.
 *
 *      y
 *      4            4-----+-----5      vertex    x   y   normal   advancement   source
 *                   |           |         0      0   1    0   1       0          0
 *                   |     |     |         1      0  -1    0  -1       0          1
 *      1      0-----2           |         2      3   1   -1   1       4          2
 *             |     inner |     |         3      5  -1    1  -1       4          3
 *      0      + - - - - - +     |         4      3   4   -1   0       8          4
 *             |                 |         5      5   4    1   0       8          5
 *     -1      1-----------------3
 *                                tip   triangles: 1 0 2, 1 2 3, 3 2 4, 3 4 5
 *             0     3     4     5  x
 *
 * - x and y are the path's point plus the normal times half the width, in floats. The normal is not of length 1: it reaches to the side of a stripe of half width 1, at this tip the root of 2 far. A shader that has point and
 *   normal can so change the width a little; at another width the joins may be others.
 * - The advancement is the length of the run from its begin to the vertex's point, over the points that are kept; each run starts at 0, and so does each dash. It is for what goes along the lane: arrows, a texture's coordinate.
 * - The source names the path's point, twice its number, and one more on the right-hand side: what a tap on the stripe is to be told by.
 * - The miter limit counts half widths: a tip that lies farther from its point than limit * width / 2 is beyond it. It is SVG's stroke-miterlimit.
 * - Triangles turn clockwise where y points up, and so the other way on most screens. Where the path folds, as in a bend sharper than the stripe is wide, some are turned over or lie over others, and an arc on the right-hand
 *   side of a round join turns the other way: draw both faces.
 * - Four vertices and four triangles to a begin or a line are always enough, 20 floats, 4 sources and 12 numbers, and with that room nothing is counted before it is written. With a round join or cap that is so of
 *   2^detail times as much. Or ask stipeharbor_measure first; with dashes it alone knows how many there are.
 *
 * Arcs, of a detail k. With STIPEHARBOR_ROUND_JOIN an arc stands on each side of a join that has two vertices, but not where the stripe overlaps there or folds: 2^k - 1 vertices and as many triangles, also where the path
 * goes straight on. With STIPEHARBOR_ROUND_CAP each end of an open run has 2^(k+1) - 1 of each, and a point alone is a disc of 2^(k+2) vertices and two triangles fewer. An arc's vertices stand behind all
 * others of their run, and have the advancement and the number of the point that they are about; their normals have length 1, so that each lies half a width from it, within one part in a million before its place is rounded.
 * With k = 0 a round join is a bevel, and a round cap a triangle.
 *
 * Dashes. Their list has the lengths of dashes and gaps in turn, the first of them a dash's, in the units of the coordinates; an odd list is taken twice over, so that 3 is 3 and 3, and 5 3 2 is 5 3 2 5 3 2. The offset is how far
 * into that pattern a run begins; each run begins it anew. Both are SVG's stroke-dasharray and stroke-dashoffset. Along (0,0), (8,0) the list 3 draws from 0 to 3 and from 6 to 8; with offset 4 it draws from 2 to 5.
 * Each dash is an open run of its own: it carries on around the corners inside it, has both its caps, an advancement from 0, and its vertices behind those of the dash before. What lies at a cut has the number of the point that
 * its edge begins at. A closed run is cut from its first point on, and its last dash does not join its first, also where no cut falls. The merge range leaves points of a dash out, too, and a dash with one point left is
 * drawn as nothing. A run of which one point is kept has no dashes, and is drawn as without them. */

/* How far a mesh reaches. With STIPEHARBOR_MITER, STIPEHARBOR_BEVEL or STIPEHARBOR_ROUND_JOIN, any cap, any dashes and any path that is accepted, every x and y that stipeharbor_tessellate writes is
 * finite and at most 4194304 in size, so that as a whole number it fits a signed 24-bit unit (-8388608 to 8388607). In fact none is beyond 1892352, and four times
 * such a number still fits. Why: a path that turns back so far that its normal would be longer than some 200 has none there; with every rounding counted a normal is at
 * most 227, and a place is a coordinate, at most 32768, and a normal times half the width, at most 8192. The miter limit plays no part. This is proved
 * (docs/PROVED.md), and so is: every advancement is finite, and does not fall along a run, or a dash, up to its arcs' vertices. These stand behind the others, and begin again.
 * Not so with STIPEHARBOR_MITER_CLIP: cut off at a limit of 1024 a stripe of width 16384 reaches x = 8421376, and more. There a caller tests x and y. */

/* Strokes a path: a mesh at the start of `vertices` (five floats each: x, y, the normal's x and y, the advancement), of `sources` (one number to a vertex: where it
 * came from, below) and of `triangles` (three vertex numbers each). Elements behind it keep what they have. Room is the list's length over 5 or over 3, rounded
 * down; of `sources` its length. Vertex room is the smaller of the two lists'.
 * A point whose squared distance to the last one kept is below `merge_range` squared, both in floats, is left out, and so are the last ones of a closed run that
 * are so near its first. The least range leaves out what is too near to be drawn; plans traced by hand want more.
 * `detail` is the k of arcs, 0 to STIPEHARBOR_DETAIL_MOST, whatever the join and the cap; where neither is round it changes nothing.
 * `dashes` has the lengths of dashes and gaps in turn, STIPEHARBOR_DASH_LEAST to STIPEHARBOR_DASH_MOST each and at most STIPEHARBOR_DASH_COUNT_MOST of them; an empty list means no dashes. `dash_offset` is how far into them a run
 * begins, 0 to STIPEHARBOR_DASH_OFFSET_MOST, whatever the list; where that is empty it changes nothing.
 * Refusals 1 to 4, 26, 6 and 7, in this order; one leaves `vertices`, `sources` and `triangles` as they were. How much room there has to be is what stipeharbor_measure answers.
 * `answer` gets the place (of 3 and 4, else 0), the number of vertices and the number of triangles (of 0, 6 and 7, else 0). */
uint32_t stipeharbor_tessellate(
    const uint8_t *verbs, size_t verbs_len,
    const float *coords, size_t coords_len,
    float width,
    float miter_limit,
    uint32_t line_join,
    uint32_t line_cap,
    float merge_range,
    uint32_t detail,
    float dash_offset,
    const float *dashes, size_t dashes_len,
    float *vertices, size_t vertices_len,
    uint32_t *sources, size_t sources_len,
    uint32_t *triangles, size_t triangles_len,
    size_t *answer, size_t answer_len);

/* Measures the mesh that stipeharbor_tessellate would write: with 5 floats and 1 source to a vertex and 3 numbers to a triangle as it answers them, writing is not
 * refused for want of room; with one place less in any list that needs one it is.
 * Refusals 1 to 4, then 26.
 * `answer` gets the place (of 3 and 4, else 0), the number of vertices and the number of triangles (of 0, else 0). */
uint32_t stipeharbor_measure(
    const uint8_t *verbs, size_t verbs_len,
    const float *coords, size_t coords_len,
    float width,
    float miter_limit,
    uint32_t line_join,
    uint32_t line_cap,
    float merge_range,
    uint32_t detail,
    float dash_offset,
    const float *dashes, size_t dashes_len,
    size_t *answer, size_t answer_len);

/* Finds the part of `vertices`, a list that stipeharbor_tessellate wrote for this path and these options, that the run of the number `run` wrote; runs are counted from 0
 * over the begin verbs, and a run's part has all its dashes. The part is vertices[start] .. vertices[start + length - 1]. A run that drew nothing has an empty part, and so has a refusal: start and length are 0.
 * Only the list's length is looked at, and the list of sources plays no role.
 * Refusals 1 to 4, then 26, then 6 where `vertices` is too short for the whole mesh, then 19.
 * `answer` gets the place (of 3 and 4, else 0), the part's start and its length, both in floats. */
uint32_t stipeharbor_run_part(
    const uint8_t *verbs, size_t verbs_len,
    const float *coords, size_t coords_len,
    float width,
    float miter_limit,
    uint32_t line_join,
    uint32_t line_cap,
    float merge_range,
    uint32_t detail,
    float dash_offset,
    const float *dashes, size_t dashes_len,
    size_t run,
    const float *vertices, size_t vertices_len,
    size_t *answer, size_t answer_len);

/* Of a vertex's source: the number of the endpoint that it came from, counted from 0 over the begin and line verbs of the whole path, those whose points are left
 * out as well; and whether it lies on the negative side (1), the right-hand one where y points up, or on the positive one (0). */
#define STIPEHARBOR_SOURCE_ENDPOINT(source) ((source) / 2)
#define STIPEHARBOR_SOURCE_IS_NEGATIVE(source) ((source) % 2)

/* Reads path text (M, L, H, V and Z in either case, decimals of up to six places) into the start of `verbs` and of `coords`, as stipeharbor_tessellate takes them. Elements behind keep what they have.
 * Refusals 8 to 11; one leaves `verbs` and `coords` as they were.
 * `answer` gets the place (of 9 and 10, else 0), the number of verbs and the number of coordinates (of 0, else 0). */
uint32_t stipeharbor_read(
    const uint8_t *text, size_t text_len,
    uint8_t *verbs, size_t verbs_len,
    float *coords, size_t coords_len,
    size_t *answer, size_t answer_len);

/* The float nearest to the exact square root of +0 or of a finite positive float. Refusal 13 for any other.
 * `value` gets the root, or +0 with a refusal. */
uint32_t stipeharbor_root(
    float x,
    float *value, size_t value_len);

/* The normal of a join between edges of the unit directions (x1, y1) and (x2, y2), so long that their sides one unit off meet at its end.
 * Refusal 4 where a component is not finite or beyond 2 in size.
 * `normal` gets x and y, or zeros with a refusal. */
uint32_t stipeharbor_compute_normal(
    float x1,
    float y1,
    float x2,
    float y2,
    float *normal, size_t normal_len);

/* Writes a mesh as binary STL to the start of `bytes`: 80 zero bytes, the number of triangles, then 50 bytes to a triangle, with x and y of its corners; normals, z and
 * the last two bytes are zero. 84 + 50 * n bytes are needed for n triangles; bytes behind them keep what they have. `vertices` and `triangles` are as
 * stipeharbor_tessellate writes them, cut to the counts that it answered: a vertex is five floats, a triangle three numbers, and what is left over at an end is no part.
 * Refusals 14 and 16; one leaves `bytes` as they were.
 * `answer` gets the place (of 16, else 0) and the number of bytes (of 0, else 0). */
uint32_t stipeharbor_stl_write(
    const float *vertices, size_t vertices_len,
    const uint32_t *triangles, size_t triangles_len,
    uint8_t *bytes, size_t bytes_len,
    size_t *answer, size_t answer_len);

/* Reads a binary STL file: x and y of each corner, six floats to a triangle, to the start of `corners`. Floats behind them keep what they have. Header, normals and the last two
 * bytes of a triangle are not looked at; z may be 0 or -0. What stipeharbor_stl_write wrote is read back bit for bit.
 * Refusals 15 to 17; one leaves `corners` as they were.
 * `answer` gets the place (of 16, else 0) and the number of floats (of 0, else 0). */
uint32_t stipeharbor_stl_read(
    const uint8_t *bytes, size_t bytes_len,
    float *corners, size_t corners_len,
    size_t *answer, size_t answer_len);

/* Puts a stored list over the start of `wide`: a triangle list of handhelds that hold 16-bit numbers becomes one that the calls above take. Numbers behind it keep what they have.
 * Refusal 17; it leaves `wide` as it was.
 * `answer` gets the place (0) and how many numbers were put there (of 0, else 0). */
uint32_t stipeharbor_widen(
    const uint16_t *numbers, size_t numbers_len,
    uint32_t *wide, size_t wide_len,
    size_t *answer, size_t answer_len);

/* Puts a list over the start of `narrowed`, to be stored, where no number is above STIPEHARBOR_NARROW_MOST. Either call undoes the other.
 * Refusals 17 and 18; one leaves `narrowed` as it was.
 * `answer` gets the place (of 18, else 0) and how many numbers were put there (of 0, else 0). */
uint32_t stipeharbor_narrow(
    const uint32_t *numbers, size_t numbers_len,
    uint16_t *narrowed, size_t narrowed_len,
    size_t *answer, size_t answer_len);

/* Whether an index list from elsewhere, three numbers to a triangle, is one over `count` vertices: its length is a multiple of three, every number is below the count, each
 * triangle's three differ, and every vertex is named. Refusals 20 to 23, the first fault in that order. Every mesh that stipeharbor_tessellate writes passes.
 * It takes three looks at each number, and one more for each 262,144 vertices beyond the first so many: its marks are 33 KiB of the stack, whatever the list.
 * `answer` gets the place (of 21 to 23, else 0). */
uint32_t stipeharbor_check(
    size_t count,
    const uint32_t *list, size_t list_len,
    size_t *answer, size_t answer_len);

/* The same, and then whether each triangle but the first shares exactly two vertices with some earlier one: refusal 24. It is so of a mesh of stipeharbor_tessellate where at
 * most one run, or dash, is drawn, and of each by itself; two have no vertex in common, and the second's first triangle is 24.
 * Earlier triangles are looked at from the latest on, so that a mesh of this library takes one look at each. A list made to be slow takes n * (n - 1) / 2 looks at its n
 * triangles: 40,000 of them some seconds, 200,000 more than a minute. Whoever takes lists from strangers asks first how long they are.
 * `answer` gets the place (of 21 to 24, else 0). */
uint32_t stipeharbor_check_attached(
    size_t count,
    const uint32_t *list, size_t list_len,
    size_t *answer, size_t answer_len);

/* Path text over the radio, in fragments: however the text is divided, and a number may be broken across two, what the closing call answers is what stipeharbor_read answers to the
 * whole text. Between two calls the caller holds `state`, STIPEHARBOR_RADIO_WORDS words, and lends the same `verbs` and `coords` to each. A new text:
 * `state` gets its words; it is 25, and nothing changes, where the list is shorter. */
uint32_t stipeharbor_radio_start(
    size_t *state, size_t state_len);

/* Takes a fragment of any length, none included. What ends in it is put behind what was put before, as far as both lists go: their places are not final before the closing
 * call. Words that are no state's count as closed. Refusal 25, behind the closing call; it changes nothing. */
uint32_t stipeharbor_radio_take(
    size_t *state, size_t state_len,
    const uint8_t *fragment, size_t fragment_len,
    uint8_t *verbs, size_t verbs_len,
    float *coords, size_t coords_len);

/* Ends the text. After 0 both lists are as stipeharbor_read leaves them. Refusals 8 to 11 are of the whole text; then each list holds, as far as it reaches, what ended before the first
 * place of a 9 or 10, or the text limit, and other places keep what they have: a begin and a line end with their last number, a begin that a line after Z implies with its letter, an
 * end verb with the letter or the end of the text that calls for it. Refusal 25, behind another closing call; it changes nothing, `answer` included.
 * `answer` gets the place (of 9 and 10, else 0), the number of verbs and the number of coordinates (of 0, else 0). */
uint32_t stipeharbor_radio_close(
    size_t *state, size_t state_len,
    uint8_t *verbs, size_t verbs_len,
    float *coords, size_t coords_len,
    size_t *answer, size_t answer_len);

#ifdef __cplusplus
}
#endif

#endif
