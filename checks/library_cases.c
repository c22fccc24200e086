/* Worked cases of the library for C: what each call answers, and which reason and place a refusal tells. Prints how many hold, or which do not. */
#include "topo.h"

#include <stdio.h>
#include <stdlib.h>
#include <string.h>

static int held, failed;
static struct topo t = TOPO_NONE;
static struct topo_fault fault;
static struct topo_way way;
static struct topo_edits edits;
static uint32_t kept;
static size_t size;
static struct topo_counted counted;

static void is(const char *what, uint32_t code, uint32_t wanted)
{
    if (code == wanted) {
        ++held;
    } else {
        printf("%s: %u, and not %u\n", what, (unsigned)code, (unsigned)wanted);
        ++failed;
    }
}

static void refused(const char *what, uint32_t code, uint32_t why, uint32_t a, uint32_t b, uint32_t c)
{
    is(what, code, TOPO_REFUSED);
    is(what, fault.why, why);
    is(what, fault.a, a);
    is(what, fault.b, b);
    is(what, fault.c, c);
    memset(&fault, 0, sizeof fault);
}

static const struct topo_point four[] = {{0, 0, 0}, {40, 0, 0}, {0, 40, 0}, {0, 0, 40}};
static const struct topo_triangle sides[] = {{1, 3, 2}, {1, 2, 4}, {2, 3, 4}, {1, 4, 3}};

/* whether the tracker tells these lines since it was asked last */
static int tells(const char *lines)
{
    char text[4096];
    return topo_log(&t, text, sizeof text, &size) == TOPO_DONE && size == strlen(lines) && memcmp(text, lines, size) == 0;
}

static void shapes(void)
{
    static const struct topo_point eight[] = {{0, 0, 0}, {40, 0, 0}, {0, 40, 0}, {0, 0, 40}, {5, 5, 5}, {45, 5, 5}, {5, 45, 5}, {5, 5, 45}};
    static const struct topo_triangle meeting[] = {{1, 3, 2}, {1, 2, 4}, {2, 3, 4}, {1, 4, 3}, {5, 7, 6}, {5, 6, 8}, {6, 7, 8}, {5, 8, 7}};
    static const struct topo_triangle twice[] = {{1, 3, 2}, {1, 2, 2}, {2, 3, 4}, {1, 4, 3}};
    static const struct topo_triangle none[] = {{1, 3, 2}, {1, 2, 9}, {2, 3, 4}, {1, 4, 3}};
    static const struct topo_triangle equal[] = {{1, 3, 2}, {1, 2, 4}, {2, 3, 4}, {1, 4, 3}, {4, 2, 3}};
    static const struct topo_point out[] = {{0, 0, 0}, {40, 0, 0}, {0, 268435457, 0}, {0, 0, 40}};
    static struct topo_point many[4194305];
    static struct topo_triangle many_faces[8388609];
    refused("an open tetrahedron", topo_new(four, 4, sides, 3, &t, &fault), TOPO_UNBALANCED, 1, 3, 0);
    refused("two bodies that meet", topo_new(eight, 8, meeting, 8, &t, &fault), TOPO_MEETS, 5, 6, 3);
    refused("a corner twice", topo_new(four, 4, twice, 4, &t, &fault), TOPO_REPEATED, 2, 0, 0);
    refused("a corner that is no point", topo_new(four, 4, none, 4, &t, &fault), TOPO_CORNER, 2, 3, 0);
    refused("two equal faces", topo_new(four, 4, equal, 5, &t, &fault), TOPO_DOUBLED, 3, 5, 0);
    refused("a point outside the box", topo_new(out, 4, sides, 4, &t, &fault), TOPO_OUTSIDE, 3, 0, 0);
    refused("4,194,305 points", topo_new(many, 4194305, 0, 0, &t, &fault), TOPO_MANY_VERTICES, 4194305, 0, 0);
    refused("8,388,609 faces", topo_new(many, 1, many_faces, 8388609, &t, &fault), TOPO_MANY_FACES, 8388609, 0, 0);
    is("none is made", t.live, 0);
    is("65,537 points", topo_new(many, 65537, 0, 0, &t, &fault), TOPO_DONE);
    is("no point and no face", topo_new(0, 0, 0, 0, &t, &fault), TOPO_DONE);
    is("a tetrahedron in its place", topo_new(four, 4, sides, 4, &t, &fault), TOPO_DONE);
    refused("a refusal empties the handle", topo_new(four, 4, sides, 3, &t, &fault), TOPO_UNBALANCED, 1, 3, 0);
    is("which it does", topo_pinch(&t, &edits, &fault), TOPO_EMPTY);
    topo_free(&t);
}

static void shifts(void)
{
    const struct topo_vertex three[] = {{1, 0, 0, 1}, {9, 0, 0, 1}, {2, 0, 0, 1}};
    struct topo_vertex row[4];
    is("a tetrahedron", topo_new(four, 4, sides, 4, &t, &fault), TOPO_DONE);
    refused("no vertex 9", topo_shift(&t, 9, 1, 0, 0, &fault), TOPO_NO_VERTEX, 9, 0, 0);
    is("no vertex has the id 0", topo_shift(&t, 0, 1, 0, 0, &fault), TOPO_RANGE);
    is("a shift above 2^29", topo_shift(&t, 1, 536870913, 0, 0, &fault), TOPO_RANGE);
    is("the least number", topo_shift(&t, 1, 0, INT32_MIN, 0, &fault), TOPO_RANGE);
    is("a shift of 2^29", topo_shift(&t, 1, 536870912, 0, 0, &fault), TOPO_DONE);
    refused("and one more", topo_shift(&t, 1, 1, 0, 0, &fault), TOPO_SHIFT_RANGE, 1, 0, 0);
    refused("out of the box", topo_step(&t, &way, &fault), TOPO_BOX, 1, 0, 0);
    is("back", topo_shift(&t, 1, -536870912, 0, 0, &fault), TOPO_DONE);
    refused("up to the second of three", topo_shift_each(&t, three, 3, &fault), TOPO_NO_VERTEX, 9, 0, 0);
    is("a step", topo_step(&t, &way, &fault), TOPO_DONE);
    is("which is whole", way.how, TOPO_WHOLE);
    is("of the first alone", (uint32_t)tells("step 1\nmove 1 0 0 1\nmoved whole\n"), 1);
    is("room for three", topo_points(&t, row, 3, &size), TOPO_RANGE);
    is("four are told", (uint32_t)size, 4);
    is("room for four", topo_points(&t, row, 4, &size), TOPO_DONE);
    is("by rising id", (uint32_t)(row[0].id == 1 && row[0].z == 1 && row[1].id == 2 && row[2].id == 3 && row[3].id == 4), 1);
    topo_free(&t);
}

static void groups(void)
{
    static const struct topo_point eight[] = {{0, 0, 0}, {40, 0, 0}, {0, 40, 0}, {0, 0, 40}, {0, 0, 60}, {40, 0, 60}, {0, 40, 60}, {0, 0, 100}};
    static const struct topo_triangle both[] = {{1, 3, 2}, {1, 2, 4}, {2, 3, 4}, {1, 4, 3}, {5, 7, 6}, {5, 6, 8}, {6, 7, 8}, {5, 8, 7}};
    struct topo_vertex row[8];
    struct topo_event event[16];
    uint32_t solid[8], v;
    is("two tetrahedra", topo_new(eight, 8, both, 8, &t, &fault), TOPO_DONE);
    is("none is open", topo_close(&t, &kept, &fault), TOPO_DONE);
    is("which is told", kept, TOPO_NO_GROUP);
    is("vertex 8 is solid", topo_solid(&t, 8, &fault), TOPO_DONE);
    refused("and is not shifted", topo_shift(&t, 8, 1, 0, 0, &fault), TOPO_SOLID, 8, 0, 0);
    is("the solid ones", topo_solids(&t, solid, 8, &size), TOPO_DONE);
    is("are one", (uint32_t)(size == 1 && solid[0] == 8), 1);
    is("no impulse, no zones", topo_set(&t, 6, 0, 0, 6), TOPO_DONE);
    is("a group", topo_open(&t, &fault), TOPO_DONE);
    for (v = 1; v <= 4; ++v)
        is("the one goes through the other", topo_shift(&t, v, 0, 0, 50, &fault), TOPO_DONE);
    is("a step", topo_step(&t, &way, &fault), TOPO_DONE);
    is("is halved", way.how, TOPO_HALVED);
    is("twice", way.times, 2);
    is("for 18 pairs", (uint32_t)way.hits, 18);
    is("the group is closed", topo_close(&t, &kept, &fault), TOPO_DONE);
    is("and taken back", kept, TOPO_TAKEN_BACK);
    is("the vertices", topo_points(&t, row, 8, &size), TOPO_DONE);
    is("stand as before", (uint32_t)(row[0].z == 0 && row[1].z == 0 && row[2].z == 0 && row[3].z == 40), 1);
    is("too few events fit", topo_events(&t, event, 1, &size), TOPO_RANGE);
    is("the events", topo_events(&t, event, 16, &size), TOPO_DONE);
    is("are seven", (uint32_t)size, 7);
    is("first the solid one", event[0].kind == TOPO_MADE_SOLID && event[0].a == 8, 1);
    is("a move", event[2].kind == TOPO_MOVED && event[2].a == 1 && event[2].z == 12, 1);
    is("last the group", event[6].kind, TOPO_GROUP_UNDONE);
    is("no log fits", topo_log(&t, 0, 0, &size), TOPO_RANGE);
    is("and stays", topo_events(&t, event, 16, &size), TOPO_DONE);
    is("it is forgotten", topo_forget(&t), TOPO_DONE);
    is("nothing is told", topo_counts(&t, &counted), TOPO_DONE);
    is("of eight vertices", (uint32_t)(counted.vertices == 8 && counted.faces == 8 && counted.lines == 0), 1);
    is("that come from nine on", (uint32_t)(counted.next_vertex == 9 && counted.next_face == 9 && counted.steps == 1), 1);
    is("a number that says nothing of lines", topo_keep(&t, 2), TOPO_RANGE);
    is("a line", topo_solid(&t, 1, &fault), TOPO_DONE);
    is("is kept", topo_keep(&t, 1) == TOPO_DONE && topo_counts(&t, &counted) == TOPO_DONE && counted.lines == 1, 1);
    is("no lines", topo_keep(&t, 0), TOPO_DONE);
    is("are kept or told", topo_solid(&t, 2, &fault) == TOPO_DONE && topo_counts(&t, &counted) == TOPO_DONE && counted.lines == 0, 1);
    is("and there are no events", topo_events(&t, event, 16, &size) == TOPO_DONE && size == 0, 1);
    is("and no log", topo_log(&t, 0, 0, &size) == TOPO_DONE && size == 0, 1);
    is("lines again", topo_keep(&t, 1), TOPO_DONE);
    is("are told", topo_solid(&t, 3, &fault) == TOPO_DONE && topo_events(&t, event, 16, &size) == TOPO_DONE && size == 1 && event[0].a == 3, 1);
    topo_free(&t);
}

static void passes(void)
{
    struct topo_event event[16];
    is("a tetrahedron", topo_new(four, 4, sides, 4, &t, &fault), TOPO_DONE);
    is("a length above 2^30", topo_split(&t, 1073741825, &edits, &fault), TOPO_RANGE);
    is("three edges are split", topo_split(&t, 45, &edits, &fault), TOPO_DONE);
    is("as is told", (uint32_t)(edits.done == 3 && edits.refused == 0), 1);
    is("their events", topo_events(&t, event, 16, &size), TOPO_DONE);
    is("are three", (uint32_t)size, 3);
    is("the first of them", (uint32_t)(event[0].kind == TOPO_SPLIT && event[0].a == 2 && event[0].b == 3 && event[0].c == 5 && event[0].x == 20 && event[0].y == 20 && event[0].z == 0), 1);
    is("flips", topo_flip(&t, &edits, &fault), TOPO_DONE);
    is("one done and three refused", (uint32_t)(edits.done == 1 && edits.refused == 3), 1);
    is("its lines", (uint32_t)tells("pass split 45\nsplit 2 3 5 20 20 0\nsplit 2 4 6 20 0 20\nsplit 3 4 7 0 20 20\npass flip\nno flip 1 2 edge\nno flip 1 3 edge\nno flip 1 4 hit 1 8 11\nflip 4 5\n"), 1);
    is("no band", topo_fit(&t, 60, 60, &edits), TOPO_RANGE);
    is("a band above 2^30", topo_fit(&t, 60, 1073741825, &edits), TOPO_RANGE);
    is("a band", topo_fit(&t, 20, 60, &edits), TOPO_DONE);
    is("in which all edges are", (uint32_t)(edits.done == 0 && edits.refused == 0), 1);
    is("fits", (uint32_t)tells("pass fit\n"), 1);
    is("settings within their limits", topo_set(&t, 10, 100, 1, 27), TOPO_DONE);
    is("a depth of 11", topo_set(&t, 11, 100, 1, 27), TOPO_RANGE);
    is("zones of 2", topo_set(&t, 10, 100, 2, 27), TOPO_RANGE);
    is("a depth of more than eight bits", topo_set(&t, 262, 3, 1, 6), TOPO_RANGE);
    is("passes of more than eight bits", topo_set(&t, 6, 259, 1, 6), TOPO_RANGE);
    is("zones of more than eight bits", topo_set(&t, 6, 3, 257, 6), TOPO_RANGE);
    is("halvings of more than eight bits", topo_set(&t, 6, 3, 1, UINT32_MAX), TOPO_RANGE);
    topo_free(&t);
    is("nothing is there", topo_fit(&t, 20, 60, &edits), TOPO_EMPTY);
}

/* what a table tells of the tetrahedron, whose edges are 40 long, or 57 between vertices 2, 3 and 4, and have their middles at 0 and 20 */
static int fits_by(const struct topo_cells *cells, const struct topo_band *bands, size_t count, const char *lines)
{
    int so;
    is("a tetrahedron", topo_new(four, 4, sides, 4, &t, &fault), TOPO_DONE);
    is("a table", topo_fit_by(&t, cells, bands, count, &edits, &fault), TOPO_DONE);
    so = tells(lines);
    topo_free(&t);
    return so;
}

static void tables(void)
{
    static const struct topo_band wide = {1, 100}, two[] = {{1, 100}, {1, 45}}, last_none[] = {{1, 100}, {45, 45}}, high[] = {{1, 1073741825}, {45, 45}};
    static const struct topo_cells along_x = {-20, 0, 0, 20, 3, 1, 1}, along_y = {0, 0, 0, 20, 1, 2, 1}, along_z = {0, 0, 1, 19, 1, 1, 2};
    static const struct topo_cells before = {-60, 7, -7, 5, 2, 1, 1}, behind = {50, 7, 7, 5, 2, 1, 1}, eight_cells = {0, 0, 0, 20, 2, 2, 2};
    static const struct topo_cells far = {INT32_MIN, INT32_MAX, INT32_MIN, UINT32_MAX, 1, 1, 2}, no_side = {0, 0, 0, 0, 2, 1, 1}, none = {0, 0, 0, 5, 0, 1, 1};
    static const struct topo_cells wraps = {0, 0, 0, 5, 2147483648u, 2147483648u, 4};
    const struct topo_band three[] = {{1, 100}, {1, 100}, {1, 45}};
    struct topo_band eight[] = {wide, wide, wide, {1, 45}, wide, {1, 45}, wide, wide};
    is("along x", (uint32_t)fits_by(&along_x, three, 3, "pass fit\nsplit 2 3 5 20 20 0\nsplit 2 4 6 20 0 20\n"), 1);
    is("along y", (uint32_t)fits_by(&along_y, two, 2, "pass fit\nsplit 2 3 5 20 20 0\nsplit 3 4 6 0 20 20\n"), 1);
    is("along z", (uint32_t)fits_by(&along_z, two, 2, "pass fit\nsplit 2 4 5 20 0 20\nsplit 3 4 6 0 20 20\n"), 1);
    is("behind all cells", (uint32_t)fits_by(&before, two, 2, "pass fit\nsplit 2 3 5 20 20 0\nsplit 2 4 6 20 0 20\nsplit 3 4 7 0 20 20\n"), 1);
    is("before all cells", (uint32_t)fits_by(&behind, two, 2, "pass fit\n"), 1);
    is("x runs first", (uint32_t)fits_by(&eight_cells, eight, 8, "pass fit\nsplit 2 3 5 20 20 0\nsplit 2 4 6 20 0 20\n"), 1);
    is("the largest cells", (uint32_t)fits_by(&far, two, 2, "pass fit\n"), 1);
    is("a tetrahedron", topo_new(four, 4, sides, 4, &t, &fault), TOPO_DONE);
    edits.done = 7;
    refused("cells of no side", topo_fit_by(&t, &no_side, last_none, 2, &edits, &fault), TOPO_NO_SIDE, 0, 0, 0);
    refused("no cells", topo_fit_by(&t, &none, 0, 0, &edits, &fault), TOPO_MISCOUNTED, 0, 0, 0);
    refused("fewer bands than cells", topo_fit_by(&t, &along_x, last_none, 2, &edits, &fault), TOPO_MISCOUNTED, 0, 0, 0);
    refused("more bands than cells", topo_fit_by(&t, &along_y, three, 3, &edits, &fault), TOPO_MISCOUNTED, 0, 0, 0);
    refused("2^64 cells", topo_fit_by(&t, &wraps, 0, 0, &edits, &fault), TOPO_MISCOUNTED, 0, 0, 0);
    refused("a band of one length", topo_fit_by(&t, &along_y, last_none, 2, &edits, &fault), TOPO_NO_BAND, 1, 0, 0);
    refused("a band above 2^30", topo_fit_by(&t, &along_y, high, 2, &edits, &fault), TOPO_NO_BAND, 0, 0, 0);
    is("tell no number", (uint32_t)edits.done, 7);
    is("and no line", (uint32_t)tells(""), 1);
    topo_free(&t);
    refused("a table that is none, of no tracker", topo_fit_by(&t, &no_side, two, 2, &edits, &fault), TOPO_NO_SIDE, 0, 0, 0);
    is("a table, of no tracker", topo_fit_by(&t, &along_y, two, 2, &edits, &fault), TOPO_EMPTY);
}

/* what a tracker needs to go on with its ids */
static struct topo_vertex points[16];
static struct topo_face faces[16];
static uint32_t solids[16];
static size_t point_count, face_count, solid_count;

static void leave(void)
{
    is("its vertices", topo_points(&t, points, 16, &point_count), TOPO_DONE);
    is("its faces", topo_faces(&t, faces, 16, &face_count), TOPO_DONE);
    is("its solid vertices", topo_solids(&t, solids, 16, &solid_count), TOPO_DONE);
    is("its numbers", topo_counts(&t, &counted), TOPO_DONE);
}

static uint32_t again(void)
{
    return topo_new_numbered(points, point_count, faces, face_count, solids, solid_count, counted.next_vertex, counted.next_face, &t, &fault);
}

/* a tetrahedron whose edges are split, and four of the new ones collapsed */
static void begin(void)
{
    is("a tetrahedron", topo_new(four, 4, sides, 4, &t, &fault), TOPO_DONE);
    is("splits", topo_split(&t, 45, &edits, &fault), TOPO_DONE);
    is("and splits", topo_split(&t, 30, &edits, &fault), TOPO_DONE);
    is("vertex 1 is solid", topo_solid(&t, 1, &fault), TOPO_DONE);
    is("collapses", topo_collapse(&t, 21, &edits, &fault), TOPO_DONE);
    is("four times", (uint32_t)(edits.done == 4 && edits.refused == 0), 1);
    is("told", topo_forget(&t), TOPO_DONE);
}

/* goes on, and answers what is told of that */
static const char *go_on(void)
{
    static char text[4096];
    is("a step", topo_shift(&t, 3, 0, 3, 0, &fault), TOPO_DONE);
    is("is taken", topo_step(&t, &way, &fault), TOPO_DONE);
    is("splits again", topo_split(&t, 25, &edits, &fault), TOPO_DONE);
    is("fourteen times", (uint32_t)(edits.done == 14 && edits.refused == 0), 1);
    is("fits", topo_fit(&t, 12, 22, &edits), TOPO_DONE);
    is("by four edits", (uint32_t)(edits.done == 4 && edits.refused == 0), 1);
    is("what is told", topo_log(&t, text, sizeof text - 1, &size), TOPO_DONE);
    text[size] = 0;
    return text;
}

static void left(void)
{
    static char stayed[4096];
    begin();
    leave();
    is("the next ids", (uint32_t)(counted.next_vertex == 12 && counted.next_face == 41 && counted.vertices == 7), 1);
    strcpy(stayed, go_on());
    topo_free(&t);
    is("made again", again(), TOPO_DONE);
    is("the same lines", (uint32_t)(strcmp(stayed, go_on()) == 0), 1);
    is("made in its place", again(), TOPO_DONE);
    is("the same again", (uint32_t)(strcmp(stayed, go_on()) == 0), 1);
    is("no row", topo_new_numbered(0, 0, 0, 0, 0, 0, 1, 1, &t, &fault), TOPO_DONE);
    is("nothing lives", topo_counts(&t, &counted), TOPO_DONE);
    is("and the first ids come next", (uint32_t)(counted.next_vertex == 1 && counted.next_face == 1 && counted.vertices == 0), 1);
    topo_free(&t);
}

/* rows of a tetrahedron at the vertices 2, 4, 6, 8 and the faces 3, 5, 7, 9 */
static void rows_of_four(void)
{
    uint32_t i;
    for (i = 0; i < 4; ++i) {
        points[i] = (struct topo_vertex){2 * i + 2, four[i].x, four[i].y, four[i].z};
        faces[i] = (struct topo_face){2 * i + 3, 2 * sides[i].a, 2 * sides[i].b, 2 * sides[i].c};
    }
    solids[0] = 4;
    solids[1] = 8;
    point_count = face_count = 4;
    solid_count = 2;
    counted.next_vertex = 20;
    counted.next_face = 30;
}

static void numbered(void)
{
    static struct topo_vertex many[4194305];
    static struct topo_face many_faces[8388609];
    uint32_t i;
    rows_of_four();
    is("with ids of their own", again(), TOPO_DONE);
    is("splits", topo_split(&t, 45, &edits, &fault), TOPO_DONE);
    is("make vertices from the next on", (uint32_t)tells("pass split 45\nsplit 4 6 20 20 20 0\nsplit 4 8 21 20 0 20\nsplit 6 8 22 0 20 20\n"), 1);
    leave();
    is("and are told", (uint32_t)(counted.next_vertex == 23 && counted.next_face == 42 && solid_count == 2 && solids[1] == 8), 1);
    rows_of_four(), points[2].y = 268435457;
    refused("a vertex outside the box", again(), TOPO_OUTSIDE, 3, 0, 0);
    is("the handle is empty", topo_pinch(&t, &edits, &fault), TOPO_EMPTY);
    refused("4,194,305 vertices", topo_new_numbered(many, 4194305, 0, 0, 0, 0, 1, 1, &t, &fault), TOPO_MANY_VERTICES, 4194305, 0, 0);
    refused("8,388,609 faces", topo_new_numbered(0, 0, many_faces, 8388609, 0, 0, 1, 1, &t, &fault), TOPO_MANY_FACES, 8388609, 0, 0);
    rows_of_four(), counted.next_vertex = 2147483650u;
    refused("a next vertex beyond 2^31 + 1", again(), TOPO_NEXT_VERTEX, 2147483650u, 0, 0);
    rows_of_four(), counted.next_face = 0;
    refused("a next face 0", again(), TOPO_NEXT_FACE, 0, 0, 0);
    rows_of_four(), points[0].id = 0;
    refused("a vertex 0", again(), TOPO_VERTEX_ORDER, 1, 0, 0);
    rows_of_four(), points[2].id = 4;
    refused("a vertex twice", again(), TOPO_VERTEX_ORDER, 3, 0, 0);
    rows_of_four(), counted.next_vertex = 8;
    refused("a vertex that is the next", again(), TOPO_VERTEX_ORDER, 4, 0, 0);
    rows_of_four(), faces[1].id = 3;
    refused("a face twice", again(), TOPO_FACE_ORDER, 2, 0, 0);
    rows_of_four(), faces[1].c = 7;
    refused("a corner that does not live", again(), TOPO_CORNER, 5, 3, 0);
    rows_of_four(), faces[1].c = faces[1].b;
    refused("a corner twice", again(), TOPO_REPEATED, 5, 0, 0);
    rows_of_four(), faces[3].a = faces[2].b, faces[3].b = faces[2].c, faces[3].c = faces[2].a;
    refused("a face twice, but turned", again(), TOPO_DOUBLED, 7, 9, 0);
    rows_of_four(), solids[1] = 5;
    refused("a solid vertex that does not live", again(), TOPO_NOT_SOLID, 5, 0, 0);
    rows_of_four(), solids[1] = 4;
    refused("a solid vertex twice", again(), TOPO_NOT_SOLID, 4, 0, 0);
    rows_of_four(), face_count = 3;
    refused("an open tetrahedron", again(), TOPO_UNBALANCED, 2, 6, 0);
    rows_of_four(), point_count = face_count = 8;
    for (i = 0; i < 4; ++i) {
        points[i + 4] = (struct topo_vertex){i + 10, four[i].x + 5, four[i].y + 5, four[i].z + 5};
        faces[i + 4] = (struct topo_face){i + 10, sides[i].a + 9, sides[i].b + 9, sides[i].c + 9};
    }
    refused("two bodies that meet", again(), TOPO_MEETS, 10, 11, 7);
    topo_free(&t);
}

/* one edit in the tracker, whose answer is kept */
static struct topo_answered came;

static uint32_t edit(uint32_t kind, uint32_t a, uint32_t b, uint32_t c, uint32_t d)
{
    const struct topo_asked asked = {kind, a, b, c, d};
    size_t taken = 0;
    const uint32_t code = topo_edit_each(&t, &asked, 1, &came, 1, &taken);
    is("one edit is asked", (uint32_t)(code == TOPO_DONE ? taken == 1 : taken == 0), 1);
    return code;
}

/* whether an edit is done, and these are the numbers and the place of its answer */
static int done(uint32_t kind, uint32_t a, uint32_t b, uint32_t c, uint32_t d, uint32_t first, uint32_t second, int32_t x, int32_t y, int32_t z)
{
    const struct topo_answered wanted = {0, first, second, 0, x, y, z};
    return edit(kind, a, b, c, d) == TOPO_DONE && memcmp(&came, &wanted, sizeof came) == 0;
}

/* whether an edit is not done for this reason, with this edge and face as its place */
static int against(uint32_t kind, uint32_t a, uint32_t b, uint32_t c, uint32_t d, uint32_t why, uint32_t first, uint32_t second, uint32_t face)
{
    const struct topo_answered wanted = {why, first, second, face, 0, 0, 0};
    return edit(kind, a, b, c, d) == TOPO_DONE && memcmp(&came, &wanted, sizeof came) == 0;
}

static void edits_of_a_tetrahedron(void)
{
    struct topo_event event[2];
    is("a tetrahedron", topo_new(four, 4, sides, 4, &t, &fault), TOPO_DONE);
    is("no vertex 9", (uint32_t)against(TOPO_SPLIT, 9, 1, 0, 0, TOPO_NO_EDGE, 0, 0, 0), 1);
    is("its flip would make an edge that is there", (uint32_t)against(TOPO_FLIPPED, 1, 2, 0, 0, TOPO_EDGE, 0, 0, 0), 1);
    is("its edges share vertices", (uint32_t)against(TOPO_ZIPPED, 1, 2, 3, 4, TOPO_SHARED, 0, 0, 0), 1);
    is("its vertices have one fan", (uint32_t)against(TOPO_PINCHED, 4, 0, 0, 0, TOPO_ONE_FAN, 0, 0, 0), 1);
    is("what was asked is told, the smaller end first",
       (uint32_t)tells("no split 1 9 noedge\nno flip 1 2 edge\nno zip 1 2 3 4 shared\nno pinch 4 onefan\n"), 1);
    is("three splits, of ends in either order", (uint32_t)(done(TOPO_SPLIT, 3, 2, 0, 0, 5, 0, 20, 20, 0) && done(TOPO_SPLIT, 2, 4, 0, 0, 6, 0, 20, 0, 20) && done(TOPO_SPLIT, 4, 3, 0, 0, 7, 0, 0, 20, 20)), 1);
    is("a flip that would go through a face", (uint32_t)against(TOPO_FLIPPED, 1, 4, 0, 0, TOPO_HIT, 1, 8, 11), 1);
    is("a flip", (uint32_t)done(TOPO_FLIPPED, 5, 4, 0, 0, 0, 0, 0, 0, 0), 1);
    is("their lines", (uint32_t)tells("split 2 3 5 20 20 0\nsplit 2 4 6 20 0 20\nsplit 3 4 7 0 20 20\nno flip 1 4 hit 1 8 11\nflip 4 5\n"), 1);
    is("a collapse", (uint32_t)done(TOPO_COLLAPSED, 5, 2, 0, 0, 2, 0, 30, 10, 0), 1);
    is("a tetrahedron again", topo_new(four, 4, sides, 4, &t, &fault), TOPO_DONE);
    is("a split", (uint32_t)done(TOPO_SPLIT, 1, 2, 0, 0, 5, 0, 20, 0, 0), 1);
    is("vertex 5 is solid", topo_solid(&t, 5, &fault), TOPO_DONE);
    is("a collapse to the solid end", (uint32_t)done(TOPO_COLLAPSED, 1, 5, 0, 0, 1, 0, 20, 0, 0), 1);
    is("which is solid under the other id", topo_solids(&t, solids, 16, &solid_count), TOPO_DONE);
    is("and no other is", (uint32_t)(solid_count == 1 && solids[0] == 1), 1);
    is("vertex 4 is solid", topo_solid(&t, 4, &fault), TOPO_DONE);
    is("both ends are solid", (uint32_t)against(TOPO_COLLAPSED, 4, 1, 0, 0, TOPO_MOVES_SOLID, 0, 0, 0), 1);
    is("their events", topo_forget(&t), TOPO_DONE);
    is("a collapse that leaves nothing", (uint32_t)done(TOPO_COLLAPSED, 2, 3, 0, 0, 2, 0, 20, 20, 0), 1);
    is("but for no vertex", topo_counts(&t, &counted), TOPO_DONE);
    is("and no face", (uint32_t)(counted.vertices == 0 && counted.faces == 0), 1);
    is("is one event", topo_events(&t, event, 2, &size), TOPO_DONE);
    is("of its two ends", (uint32_t)(size == 1 && event[0].kind == TOPO_COLLAPSED && event[0].a == 2 && event[0].b == 3), 1);
    topo_free(&t);
}

static void edits_of_two_bodies(void)
{
    static const struct topo_point tunnel[] = {{0, 0, 0}, {0, 12, 0}, {0, 0, 12}, {-12, 0, 0}, {8, 2, 2}, {12, 2, 2}, {12, 6, 2}, {14, 2, 6}};
    static const struct topo_triangle both[] = {{1, 2, 3}, {2, 1, 4}, {3, 2, 4}, {1, 3, 4}, {6, 7, 8}, {7, 6, 5}, {8, 7, 5}, {6, 8, 5}};
    static const struct topo_point hourglass[] = {{0, 0, 0}, {8, 0, 16}, {-4, 7, 16}, {-4, -7, 16}, {8, 0, -16}, {-4, 7, -16}, {-4, -7, -16}};
    static const struct topo_triangle halves[] = {{1, 3, 2}, {1, 4, 3}, {1, 2, 4}, {2, 3, 4}, {1, 5, 6}, {1, 6, 7}, {1, 7, 5}, {5, 7, 6}};
    /* two tetrahedra with one edge in common, and a third between a corner of each */
    static const struct topo_point three[] = {{0, 0, 0}, {0, 0, 40}, {40, 0, 20}, {8, 4, 20}, {0, 40, 20}, {-10, 20, 20}, {40, 40, 10}, {40, 40, 30}};
    static const struct topo_triangle twelve[] = {{1, 3, 2}, {2, 3, 4}, {1, 2, 4}, {3, 1, 4}, {1, 5, 2}, {2, 5, 6}, {1, 2, 6}, {5, 1, 6}, {3, 5, 7}, {5, 3, 8}, {3, 7, 8}, {7, 5, 8}};
    is("two tetrahedra", topo_new(tunnel, 8, both, 8, &t, &fault), TOPO_DONE);
    is("a tunnel that would go through a face", (uint32_t)against(TOPO_ZIPPED, 1, 2, 5, 6, TOPO_HIT, 1, 7, 9), 1);
    is("a tunnel, in the last of its turns", (uint32_t)done(TOPO_ZIPPED, 3, 1, 6, 5, 0, 3, 0, 0, 0), 1);
    is("told", (uint32_t)tells("no zip 1 2 5 6 hit 1 7 9\nzip 1 3 5 6 3\n"), 1);
    is("an hourglass", topo_new(hourglass, 7, halves, 8, &t, &fault), TOPO_DONE);
    is("is pinched, with one copy", (uint32_t)done(TOPO_PINCHED, 1, 0, 0, 0, 8, 1, 0, 0, 2), 1);
    is("told", (uint32_t)tells("pinch 1 0 0 2 8 0 0 -2\n"), 1);
    is("an hourglass again", topo_new(hourglass, 7, halves, 8, &t, &fault), TOPO_DONE);
    is("whose middle is solid", topo_solid(&t, 1, &fault), TOPO_DONE);
    is("is not pinched", (uint32_t)against(TOPO_PINCHED, 1, 0, 0, 0, TOPO_MOVES_SOLID, 0, 0, 0), 1);
    is("three tetrahedra", topo_new(three, 8, twelve, 12, &t, &fault), TOPO_DONE);
    is("a crowded edge is not split", (uint32_t)against(TOPO_SPLIT, 1, 2, 0, 0, TOPO_CROWDED, 0, 0, 0), 1);
    is("nor flipped", (uint32_t)against(TOPO_FLIPPED, 2, 1, 0, 0, TOPO_CROWDED, 0, 0, 0), 1);
    is("nor zipped", (uint32_t)against(TOPO_ZIPPED, 1, 2, 7, 8, TOPO_CROWDED, 0, 0, 0), 1);
    is("two faces would be one", (uint32_t)against(TOPO_COLLAPSED, 3, 5, 0, 0, TOPO_EQUAL, 0, 0, 0), 1);
    is("until the crowded edge is gone", (uint32_t)(done(TOPO_COLLAPSED, 1, 2, 0, 0, 1, 0, 0, 0, 20) && done(TOPO_COLLAPSED, 5, 3, 0, 0, 3, 0, 20, 20, 20)), 1);
    is("the two are told", (uint32_t)tells("no split 1 2 crowded\nno flip 1 2 crowded\nno zip 1 2 7 8 crowded\nno collapse 3 5 doubled\ncollapse 1 2 0 0 20\ncollapse 3 5 20 20 20\n"), 1);
    topo_free(&t);
}

/* whether the tracker answers this to a row, and tells nothing */
static void none_asked(const char *what, uint32_t kind, uint32_t a, uint32_t b, uint32_t c, uint32_t d)
{
    struct topo_counted before;
    is("its numbers", topo_counts(&t, &before), TOPO_DONE);
    is(what, edit(kind, a, b, c, d), TOPO_RANGE);
    is("its numbers", topo_counts(&t, &counted), TOPO_DONE);
    is("are as before", (uint32_t)(memcmp(&before, &counted, sizeof counted) == 0), 1);
}

static void edits_that_are_none(void)
{
    static const struct topo_asked two[] = {{TOPO_SPLIT, 2, 3, 0, 0}, {TOPO_SPLIT, 2, 2, 0, 0}};
    struct topo_answered answers[3];
    const struct topo_answered untouched = {77, 77, 77, 77, 77, 77, 77};
    size_t taken = 77;
    uint32_t i;
    static const uint32_t kinds[] = {0, TOPO_MOVED, TOPO_MADE_SOLID, TOPO_GROUP_UNDONE, 4294967295u};
    is("no tracker", edit(TOPO_SPLIT, 1, 2, 0, 0), TOPO_EMPTY);
    is("nor by a row that is none", edit(99, 0, 0, 0, 0), TOPO_EMPTY);
    is("a tetrahedron", topo_new(four, 4, sides, 4, &t, &fault), TOPO_DONE);
    for (i = 0; i < 5; ++i)
        none_asked("a kind that is none", kinds[i], 1, 2, 3, 4);
    for (i = TOPO_SPLIT; i <= TOPO_ZIPPED; ++i) {
        none_asked("one end twice", i, 2, 2, 3, 4);
        none_asked("an end 0", i, 0, 2, 3, 4);
        none_asked("the other end 0", i, 2, 0, 3, 4);
        none_asked("an end above 2^31", i, 2147483649u, 2, 3, 4);
        none_asked("an end of 2^32 - 1", i, 2, 4294967295u, 3, 4);
    }
    none_asked("the second edge with one end twice", TOPO_ZIPPED, 1, 2, 3, 3);
    none_asked("the second edge with an end 0", TOPO_ZIPPED, 1, 2, 3, 0);
    none_asked("the second edge with an end above 2^31", TOPO_ZIPPED, 1, 2, 2147483649u, 3);
    none_asked("a vertex 0", TOPO_PINCHED, 0, 1, 1, 1);
    none_asked("a vertex above 2^31", TOPO_PINCHED, 2147483649u, 1, 1, 1);
    is("a vertex of 2^31 may be asked", edit(TOPO_PINCHED, 2147483648u, 0, 0, 0), TOPO_DONE);
    for (i = 0; i < 3; ++i)
        answers[i] = untouched;
    is("the second row is none", topo_edit_each(&t, two, 2, answers, 3, &taken), TOPO_RANGE);
    is("room for no answer", topo_edit_each(&t, two, 1, 0, 0, &taken), TOPO_RANGE);
    is("room for one of two", topo_edit_each(&t, two, 2, answers, 1, &taken), TOPO_RANGE);
    is("nothing is told", (uint32_t)(taken == 77 && memcmp(&answers[0], &untouched, sizeof untouched) == 0), 1);
    is("no edit and no room", topo_edit_each(&t, 0, 0, 0, 0, &taken), TOPO_DONE);
    is("is none", (uint32_t)taken, 0);
    is("more room than edits", topo_edit_each(&t, two, 1, answers, 3, &taken), TOPO_DONE);
    is("is left as it was", (uint32_t)(taken == 1 && answers[0].a == 5 && memcmp(&answers[1], &untouched, sizeof untouched) == 0), 1);
    topo_free(&t);
}

/* an id beyond which there is none */
static void edits_at_the_limit(void)
{
    rows_of_four(), counted.next_vertex = 2147483649u;
    is("no further vertex", again(), TOPO_DONE);
    is("no split", (uint32_t)against(TOPO_SPLIT, 2, 4, 0, 0, TOPO_FULL, 0, 0, 0), 1);
    is("it is told", (uint32_t)tells("no split 2 4 full\n"), 1);
    topo_free(&t);
}

static void groups_taken_back(void)
{
    static const struct topo_asked three[] = {{TOPO_SPLIT, 2, 3, 0, 0}, {TOPO_FLIPPED, 1, 2, 0, 0}, {TOPO_SPLIT, 2, 4, 0, 0}};
    struct topo_answered answers[3];
    struct topo_counted before;
    uint32_t became = 77;
    size_t taken = 77;
    is("no tracker", topo_undo(&t, &became), TOPO_EMPTY);
    is("tells nothing", became, 77);
    is("a tetrahedron", topo_new(four, 4, sides, 4, &t, &fault), TOPO_DONE);
    is("no group is open", topo_undo(&t, &became), TOPO_DONE);
    is("and that is told", became, TOPO_NO_GROUP);
    is("it tells no line", (uint32_t)tells(""), 1);
    is("outside a group all are asked", topo_edit_each(&t, three, 3, answers, 3, &taken), TOPO_DONE);
    is("and two are done", (uint32_t)(taken == 3 && answers[0].why == 0 && answers[1].why == TOPO_EDGE && answers[2].why == 0), 1);
    is("its numbers", topo_counts(&t, &before), TOPO_DONE);
    is("a group", topo_open(&t, &fault), TOPO_DONE);
    is("a group in it", topo_open(&t, &fault), TOPO_DONE);
    is("in which the first refused", edit(TOPO_FLIPPED, 1, 2, 0, 0), TOPO_DONE);
    is("does not end the next list", (uint32_t)done(TOPO_SPLIT, 3, 4, 0, 0, 7, 0, 0, 20, 20), 1);
    is("but its own", topo_edit_each(&t, three + 1, 2, answers, 3, &taken), TOPO_DONE);
    is("of one", (uint32_t)taken, 1);
    is("the inner group", topo_undo(&t, &became), TOPO_DONE);
    is("is taken back", became, TOPO_TAKEN_BACK);
    is("the outer group is whole, with an edit", (uint32_t)done(TOPO_SPLIT, 3, 4, 0, 0, 7, 0, 0, 20, 20), 1);
    is("it may be taken back all the same", topo_undo(&t, &became), TOPO_DONE);
    is("as it is", became, TOPO_TAKEN_BACK);
    is("its numbers", topo_counts(&t, &counted), TOPO_DONE);
    is("are as before", (uint32_t)(before.vertices == counted.vertices && before.faces == counted.faces && before.next_vertex == counted.next_vertex && before.next_face == counted.next_face), 1);
    is("and its lines", (uint32_t)tells("split 2 3 5 20 20 0\nno flip 1 2 edge\nsplit 2 4 6 20 0 20\ngroup\ngroup\nno flip 1 2 edge\nsplit 3 4 7 0 20 20\nno flip 1 2 edge\nclose undone\nsplit 3 4 7 0 20 20\nclose undone\n"), 1);
    topo_free(&t);
}

/* the place of a vertex among these, from 1 */
static uint32_t place_of(const struct topo_vertex *rows, size_t count, uint32_t id)
{
    size_t k = 0;
    while (k < count && rows[k].id != id)
        ++k;
    return (uint32_t)k + 1;
}

static void numbered_anew(void)
{
    struct topo_vertex was[8], row[8];
    struct topo_face had[16], face[16];
    uint32_t solids[8];
    size_t count, faces, k;
    is("no tracker", topo_renumber(&t), TOPO_EMPTY);
    is("a tetrahedron", topo_new(four, 4, sides, 4, &t, &fault), TOPO_DONE);
    is("three splits", (uint32_t)(done(TOPO_SPLIT, 1, 2, 0, 0, 5, 0, 20, 0, 0) && done(TOPO_SPLIT, 3, 4, 0, 0, 6, 0, 0, 20, 20) && done(TOPO_SPLIT, 2, 3, 0, 0, 7, 0, 20, 20, 0)), 1);
    is("and a collapse, so that there is no vertex 6", (uint32_t)done(TOPO_COLLAPSED, 4, 6, 0, 0, 4, 0, 0, 10, 30), 1);
    is("and one split more", (uint32_t)done(TOPO_SPLIT, 1, 3, 0, 0, 8, 0, 0, 20, 0), 1);
    is("vertex 8 is solid", topo_solid(&t, 8, &fault), TOPO_DONE);
    is("vertex 7 is to move", topo_shift(&t, 7, 0, 0, 1, &fault), TOPO_DONE);
    is("a group", topo_open(&t, &fault), TOPO_DONE);
    is("has to be closed first", topo_renumber(&t), TOPO_GROUPED);
    is("as it is", topo_close(&t, &kept, &fault), TOPO_DONE);
    is("its vertices", topo_points(&t, was, 8, &count), TOPO_DONE);
    is("its faces", topo_faces(&t, had, 16, &faces), TOPO_DONE);
    is("are seven and ten, of ids up to 8 and more", (uint32_t)(count == 7 && faces == 10 && was[6].id == 8 && had[9].id > 10), 1);
    is("they are numbered anew", topo_renumber(&t), TOPO_DONE);
    is("its vertices", topo_points(&t, row, 8, &size), TOPO_DONE);
    is("are as many", (uint32_t)(size == count), 1);
    for (k = 0; k < count; ++k)
        is("in the same order and places", (uint32_t)(row[k].id == k + 1 && row[k].x == was[k].x && row[k].y == was[k].y && row[k].z == was[k].z), 1);
    is("its faces", topo_faces(&t, face, 16, &size), TOPO_DONE);
    is("are as many", (uint32_t)(size == faces), 1);
    for (k = 0; k < faces; ++k)
        is("in the same order, of the same corners", (uint32_t)(face[k].id == k + 1 && face[k].a == place_of(was, count, had[k].a) && face[k].b == place_of(was, count, had[k].b) && face[k].c == place_of(was, count, had[k].c)), 1);
    is("its solid vertex", topo_solids(&t, solids, 8, &size), TOPO_DONE);
    is("is the last", (uint32_t)(size == 1 && solids[0] == 7), 1);
    is("its numbers", topo_counts(&t, &counted), TOPO_DONE);
    is("go on behind them, and no line is told", (uint32_t)(counted.next_vertex == 8 && counted.next_face == 11 && counted.lines == 0 && counted.steps == 0), 1);
    is("a step", topo_step(&t, &way, &fault), TOPO_DONE);
    is("moves the vertex that was to move", (uint32_t)tells("step 1\nmove 6 0 0 1\nmoved whole\n"), 1);
    topo_free(&t);
}

static void logs_begun(void)
{
    uint32_t number = 77;
    is("no tracker", topo_begin_log(&t), TOPO_EMPTY);
    is("nor a mesh in it", topo_save(&t, &number), TOPO_EMPTY);
    is("nor an end", topo_end_log(&t), TOPO_EMPTY);
    is("tells no number", number, 77);
    is("a tetrahedron", topo_new(four, 4, sides, 4, &t, &fault), TOPO_DONE);
    is("with a split", (uint32_t)done(TOPO_SPLIT, 1, 2, 0, 0, 5, 0, 20, 0, 0), 1);
    is("its lines", (uint32_t)tells("split 1 2 5 20 0 0\n"), 1);
    is("it is numbered anew", topo_renumber(&t), TOPO_DONE);
    is("vertex 5 is solid", topo_solid(&t, 5, &fault), TOPO_DONE);
    is("and vertex 2", topo_solid(&t, 2, &fault), TOPO_DONE);
    is("vertex 4 is to move", topo_shift(&t, 4, 0, 0, 1, &fault), TOPO_DONE);
    is("a mesh", topo_save(&t, &number), TOPO_DONE);
    is("is the first", number, 0);
    is("a group", topo_open(&t, &fault), TOPO_DONE);
    is("has to be closed before", topo_begin_log(&t), TOPO_GROUPED);
    is("and before an end", topo_end_log(&t), TOPO_GROUPED);
    is("but not before a mesh", topo_save(&t, &number), TOPO_DONE);
    is("which is the second", number, 1);
    is("it is closed", topo_close(&t, &kept, &fault), TOPO_DONE);
    is("a log", topo_begin_log(&t), TOPO_DONE);
    is("its numbers", topo_counts(&t, &counted), TOPO_DONE);
    is("are four lines", (uint32_t)counted.lines, 4);
    is("a step", topo_step(&t, &way, &fault), TOPO_DONE);
    is("a mesh", topo_save(&t, &number), TOPO_DONE);
    is("is mesh 1", number, 1);
    is("another", topo_save(&t, &number), TOPO_DONE);
    is("is mesh 2", number, 2);
    is("its end", topo_end_log(&t), TOPO_DONE);
    is("it is a whole log", (uint32_t)tells("topo log 2\nmesh 0 5 6\nsolid 2\nsolid 5\nstep 1\nmove 4 0 0 1\nmoved whole\nmesh 1 5 6\nmesh 2 5 6\nend\n"), 1);
    is("another log", topo_begin_log(&t), TOPO_DONE);
    is("of which no line", topo_keep(&t, 0), TOPO_DONE);
    is("is kept", topo_begin_log(&t), TOPO_DONE);
    is("as it goes on", topo_save(&t, &number), TOPO_DONE);
    is("or ends", topo_end_log(&t), TOPO_DONE);
    is("has its numbers all the same", number, 1);
    is("and no text", (uint32_t)tells(""), 1);
    topo_free(&t);
}

/* logs that begin where ids below the next ones are left out */
static void logs_of_ids(void)
{
    struct topo_answered answer;
    uint32_t number = 77;
    is("a tetrahedron", topo_new(four, 4, sides, 4, &t, &fault), TOPO_DONE);
    is("with a split", (uint32_t)done(TOPO_SPLIT, 1, 2, 0, 0, 5, 0, 20, 0, 0), 1);
    is("vertex 3 is solid", topo_solid(&t, 3, &fault), TOPO_DONE);
    is("a log, where it has faces no more that it had", topo_begin_log(&t), TOPO_DONE);
    is("another split", (uint32_t)done(TOPO_SPLIT, 3, 4, 0, 0, 6, 0, 0, 20, 20), 1);
    is("a mesh", topo_save(&t, &number), TOPO_DONE);
    is("is mesh 1", number, 1);
    is("its end", topo_end_log(&t), TOPO_DONE);
    is("it tells which ids there were", (uint32_t)tells("topo log 3\nmesh 0 5 6\nvertices 6 1 2 3 4 5\nfaces 9 3 4 5 6 7 8\nsolid 3\nsplit 3 4 6 0 20 20\nmesh 1 6 8\nend\n"), 1);
    is("another tetrahedron", topo_new(four, 4, sides, 4, &t, &fault), TOPO_DONE);
    is("is dropped", (uint32_t)(topo_drop(&t, 1, &answer) == TOPO_DONE && answer.why == 0), 1);
    is("a log of no vertex", topo_begin_log(&t), TOPO_DONE);
    is("tells which comes next", (uint32_t)tells("topo log 3\nmesh 0 0 0\nvertices 5\nfaces 6\n"), 1);
    topo_free(&t);
}

static void stars(void)
{
    struct topo_face row[4];
    const struct topo_face untouched = {77, 77, 77, 77};
    uint32_t i;
    size = 77;
    for (i = 0; i < 4; ++i)
        row[i] = untouched;
    is("no tracker", topo_star(&t, 1, row, 4, &size), TOPO_EMPTY);
    is("nor an edge", topo_beside(&t, 1, 2, row, 4, &size), TOPO_EMPTY);
    is("tells no size", (uint32_t)size, 77);
    is("a tetrahedron", topo_new(four, 4, sides, 4, &t, &fault), TOPO_DONE);
    is("room for two", topo_star(&t, 1, row, 2, &size), TOPO_RANGE);
    is("of three, which is told", (uint32_t)(size == 3 && memcmp(&row[0], &untouched, sizeof untouched) == 0), 1);
    is("the faces at vertex 1", topo_star(&t, 1, row, 4, &size), TOPO_DONE);
    is("are three, by rising id", (uint32_t)(size == 3 && row[0].id == 1 && row[1].id == 2 && row[2].id == 4 && memcmp(&row[3], &untouched, sizeof untouched) == 0), 1);
    is("with their corners", (uint32_t)(row[0].a == 1 && row[0].b == 3 && row[0].c == 2), 1);
    is("no room beside an edge", topo_beside(&t, 1, 2, 0, 0, &size), TOPO_RANGE);
    is("has two", (uint32_t)size, 2);
    is("the faces beside an edge", topo_beside(&t, 3, 1, row, 4, &size), TOPO_DONE);
    is("are two, by rising id", (uint32_t)(size == 2 && row[0].id == 1 && row[1].id == 4), 1);
    is("a vertex that does not live", topo_star(&t, 9, 0, 0, &size), TOPO_DONE);
    is("has none", (uint32_t)size, 0);
    is("nor has one that is no id", (uint32_t)(topo_star(&t, 0, 0, 0, &size) == TOPO_DONE && size == 0 && topo_star(&t, 4294967295u, 0, 0, &size) == TOPO_DONE && size == 0), 1);
    is("nor an edge that is none", (uint32_t)(topo_beside(&t, 1, 9, 0, 0, &size) == TOPO_DONE && size == 0 && topo_beside(&t, 0, 4294967295u, 0, 0, &size) == TOPO_DONE && size == 0), 1);
    is("with one end twice it has the faces at that", topo_beside(&t, 1, 1, row, 4, &size), TOPO_DONE);
    is("which are three", (uint32_t)size, 3);
    topo_free(&t);
}

/* whether a row is this component, its volume by its two words */
static uint32_t is_component(const struct topo_component *row, uint32_t vertex, uint32_t faces, int64_t euler, int64_t high, uint64_t low)
{
    return row->vertex == vertex && row->faces == faces && row->euler == euler && row->volume6_high == high && row->volume6_low == low;
}

static void components(void)
{
    /* the faces of the second body come first, and it is inside out: its volume is below zero */
    static const struct topo_point apart[] = {{0, 0, 0}, {40, 0, 0}, {0, 40, 0}, {0, 0, 40}, {100, 0, 0}, {140, 0, 0}, {100, 40, 0}, {100, 0, 40}};
    static const struct topo_triangle second_first[] = {{5, 6, 7}, {5, 8, 6}, {6, 8, 7}, {5, 7, 8}, {1, 3, 2}, {1, 2, 4}, {2, 3, 4}, {1, 4, 3}};
    struct topo_component row[3];
    const struct topo_component untouched = {77, 77, 77, 77, 77};
    size = 77;
    row[0] = row[1] = row[2] = untouched;
    is("no tracker has components", topo_components(&t, row, 3, &size), TOPO_EMPTY);
    is("nor a size of them", (uint32_t)size, 77);
    is("two bodies", topo_new(apart, 8, second_first, 8, &t, &fault), TOPO_DONE);
    is("room for one", topo_components(&t, row, 1, &size), TOPO_RANGE);
    is("of two, which is told", (uint32_t)(size == 2 && memcmp(&row[0], &untouched, sizeof untouched) == 0), 1);
    is("their components", topo_components(&t, row, 3, &size), TOPO_DONE);
    is("are two", (uint32_t)(size == 2 && memcmp(&row[2], &untouched, sizeof untouched) == 0), 1);
    is("the one with the least face first, whose volume is below zero", is_component(&row[0], 5, 4, 2, -1, 18446744073709487616u), 1);
    is("then the other", is_component(&row[1], 1, 4, 2, 0, 64000), 1);
    is("a split", topo_split(&t, 45, &edits, &fault), TOPO_DONE);
    is("leaves two", (uint32_t)(topo_components(&t, row, 3, &size) == TOPO_DONE && size == 2), 1);
    is("a look at the counts", topo_counts(&t, &counted), TOPO_DONE);
    /* the edges of vertex 1 are split first, so the least face is of its body now */
    is("with all faces between them", (uint32_t)(row[0].faces + row[1].faces == counted.faces), 1);
    is("and no other volume or Euler number", is_component(&row[0], 1, 10, 2, 0, 64000), 1);
    is("of either", is_component(&row[1], 5, 10, 2, -1, 18446744073709487616u), 1);
    is("a log of which nothing is told", topo_forget(&t), TOPO_DONE);
    is("reading", topo_components(&t, row, 3, &size), TOPO_DONE);
    is("tells no line", (uint32_t)tells(""), 1);
    topo_free(&t);
}

/* two bodies with a vertex in common are one component, and a large body has a volume of two words */
static void joined_and_large(void)
{
    static const struct topo_point points[] = {{0, 0, 0}, {-40, 0, 0}, {0, -40, 0}, {0, 0, -40}, {40, 0, 0}, {0, 40, 0}, {0, 0, 40}, {-268435456, -268435456, -268435456}, {268435456, -268435456, -268435456},
        {-268435456, 268435456, -268435456}, {-268435456, -268435456, 268435456}};
    static const struct topo_triangle faces[] = {{1, 2, 3}, {1, 4, 2}, {2, 4, 3}, {1, 3, 4}, {1, 6, 5}, {1, 5, 7}, {5, 6, 7}, {1, 7, 6}, {8, 10, 9}, {8, 9, 11}, {9, 10, 11}, {8, 11, 10}};
    struct topo_component row[2];
    is("two bodies with a vertex in common, and a third", topo_new(points, 11, faces, 12, &t, &fault), TOPO_DONE);
    is("are two components", (uint32_t)(topo_components(&t, row, 2, &size) == TOPO_DONE && size == 2), 1);
    is("the two as one", is_component(&row[0], 1, 8, 3, 0, 128000), 1);
    is("and the third, of 2^87", is_component(&row[1], 8, 4, 2, 8388608, 0), 1);
    topo_free(&t);
}

/* what closing the fold at an edge answers: its code, and whether that is this answer */
static uint32_t folds(uint32_t a, uint32_t b, uint32_t why, uint32_t u, uint32_t v, int32_t x, int32_t y, int32_t z)
{
    struct topo_answered came = {77, 77, 77, 77, 77, 77, 77};
    return topo_close_fold(&t, a, b, &came) == TOPO_DONE && came.why == why && came.a == u && came.b == v && came.c == 0 && came.x == x && came.y == y && came.z == z;
}

static void folds_closed(void)
{
    static const struct topo_point corners[] = {{0, 0, 0}, {40, 0, 0}, {0, 40, 0}, {40, 40, 0}, {0, 0, 40}, {40, 0, 40}, {0, 40, 40}, {40, 40, 40}};
    static const struct topo_triangle box[] = {{1, 3, 4}, {1, 4, 2}, {5, 6, 8}, {5, 8, 7}, {1, 2, 6}, {1, 6, 5}, {3, 7, 8}, {3, 8, 4}, {1, 5, 7}, {1, 7, 3}, {2, 4, 8}, {2, 8, 6}};
    /* a tube of three sides, with a waist 4 5 6 that is no face, and a vertex 10 of three faces beside its edge 4 5 */
    static const struct topo_point around[] = {{0, 0, -40}, {40, 0, -40}, {20, 40, -40}, {0, 0, 0}, {40, 0, 0}, {20, 40, 0}, {0, 0, 40}, {40, 0, 40}, {20, 40, 40}, {27, -5, 13}};
    static const struct topo_triangle tube[] = {{1, 3, 2}, {7, 8, 9}, {1, 2, 5}, {1, 5, 4}, {2, 3, 6}, {2, 6, 5}, {3, 1, 4}, {3, 4, 6}, {4, 5, 10}, {5, 8, 10}, {8, 4, 10}, {4, 8, 7}, {5, 6, 9}, {5, 9, 8}, {6, 4, 7}, {6, 7, 9}};
    struct topo_answered came = {77, 77, 77, 77, 77, 77, 77};
    is("no tracker has folds", topo_close_fold(&t, 1, 2, &came), TOPO_EMPTY);
    is("a tetrahedron", topo_new(four, 4, sides, 4, &t, &fault), TOPO_DONE);
    is("an id that is none", topo_close_fold(&t, 0, 2, &came), TOPO_RANGE);
    is("two ends that are one", topo_close_fold(&t, 2, 2, &came), TOPO_RANGE);
    is("tell nothing", came.why, 77);
    is("no edge is no fold", folds(1, 9, TOPO_NO_EDGE, 0, 0, 0, 0, 0), 1);
    is("and tells no line", (uint32_t)tells(""), 1);
    is("vertex 3 is solid", topo_solid(&t, 3, &fault), TOPO_DONE);
    is("vertex 4 too", topo_solid(&t, 4, &fault), TOPO_DONE);
    is("they are not drawn together", folds(2, 1, TOPO_MOVES_SOLID, 0, 0, 0, 0, 0), 1);
    is("which is taken back", (uint32_t)tells("solid 3\nsolid 4\ngroup\nno collapse 3 4 solid\nclose undone\n"), 1);
    is("its numbers", topo_counts(&t, &counted), TOPO_DONE);
    is("are as before", (uint32_t)(counted.vertices == 4 && counted.faces == 4 && counted.next_face == 5), 1);
    is("a tetrahedron", topo_new(four, 4, sides, 4, &t, &fault), TOPO_DONE);
    is("whose corners 3 and 4 are an edge is gone", folds(2, 1, 0, 3, 0, 0, 20, 20), 1);
    is("by a collapse", (uint32_t)tells("group\ncollapse 3 4 0 20 20\nclose kept\n"), 1);
    is("its numbers", topo_counts(&t, &counted), TOPO_DONE);
    is("are none", (uint32_t)(counted.vertices == 0 && counted.faces == 0), 1);
    is("a box", topo_new(corners, 8, box, 12, &t, &fault), TOPO_DONE);
    is("is folded at a diagonal", folds(1, 4, 0, 2, 0, 20, 20, 0), 1);
    is("by a flip and a collapse", (uint32_t)tells("group\nflip 1 4\ncollapse 2 3 20 20 0\nclose kept\n"), 1);
    is("a tube", topo_new(around, 10, tube, 16, &t, &fault), TOPO_DONE);
    is("whose waist would be an edge of four faces", folds(8, 10, TOPO_CROWDED, 4, 6, 0, 0, 0), 1);
    is("stays", (uint32_t)tells("group\ncollapse 4 5 20 0 0\nclose undone\n"), 1);
    is("its numbers", topo_counts(&t, &counted), TOPO_DONE);
    is("are as before", (uint32_t)(counted.vertices == 10 && counted.faces == 16 && counted.next_face == 17), 1);
    is("a group", topo_open(&t, &fault), TOPO_DONE);
    is("does not fail by that", folds(8, 10, TOPO_CROWDED, 4, 6, 0, 0, 0), 1);
    is("so that it is closed", topo_close(&t, &kept, &fault), TOPO_DONE);
    is("and kept", kept, TOPO_KEPT);
    topo_free(&t);
}

/* whether the component of a vertex stays, for this reason, and no line is told */
static uint32_t stays(uint32_t v, uint32_t why)
{
    struct topo_answered came = {77, 77, 77, 77, 77, 77, 77};
    return topo_drop(&t, v, &came) == TOPO_DONE && came.why == why && tells("");
}

static void components_dropped(void)
{
    /* a tetrahedron within another, and a third apart */
    static const struct topo_point points[] = {{0, 0, 0}, {400, 0, 0}, {0, 400, 0}, {0, 0, 400}, {50, 50, 50}, {80, 50, 50}, {50, 80, 50}, {50, 50, 80},
        {900, 0, 0}, {940, 0, 0}, {900, 40, 0}, {900, 0, 40}};
    static const struct topo_triangle faces[] = {{1, 3, 2}, {1, 2, 4}, {2, 3, 4}, {1, 4, 3}, {5, 7, 6}, {5, 6, 8}, {6, 7, 8}, {5, 8, 7}, {9, 11, 10}, {9, 10, 12}, {10, 11, 12}, {9, 12, 11}};
    static const struct topo_asked first = {TOPO_COLLAPSED, 1, 2, 0, 0};
    struct topo_answered came = {77, 77, 77, 77, 77, 77, 77}, hit;
    size_t taken;
    is("no tracker has components", topo_drop(&t, 1, &came), TOPO_EMPTY);
    is("three bodies", topo_new(points, 12, faces, 12, &t, &fault), TOPO_DONE);
    is("an id that is none", topo_drop(&t, 0, &came), TOPO_RANGE);
    is("tells nothing", came.why, 77);
    is("a vertex that is not there has no edge", stays(13, TOPO_NO_EDGE), 1);
    is("the outer body cannot go through the inner one", stays(3, TOPO_HIT), 1);
    is("its first edge", topo_edit_each(&t, &first, 1, &hit, 1, &taken), TOPO_DONE);
    topo_forget(&t);
    is("is refused", topo_drop(&t, 3, &came), TOPO_DONE);
    is("for this pair", (uint32_t)(hit.why == TOPO_HIT && came.a == hit.a && came.b == hit.b && came.c == hit.c), 1);
    is("a group", topo_open(&t, &fault), TOPO_DONE);
    topo_forget(&t);
    is("does not fail", stays(2, TOPO_HIT), 1);
    is("so that it is closed", topo_close(&t, &kept, &fault), TOPO_DONE);
    is("and kept", kept, TOPO_KEPT);
    topo_forget(&t);
    is("the inner one goes", topo_drop(&t, 7, &came), TOPO_DONE);
    is("by one collapse", (uint32_t)(came.why == 0 && came.a == 5 && came.x == 65 && came.y == 50 && came.z == 50), 1);
    is("in a group", (uint32_t)tells("group\ncollapse 5 6 65 50 50\nclose kept\n"), 1);
    is("its numbers", topo_counts(&t, &counted), TOPO_DONE);
    is("are those of two bodies", (uint32_t)(counted.vertices == 8 && counted.faces == 8), 1);
    is("the outer one", topo_drop(&t, 4, &came), TOPO_DONE);
    is("goes now", (uint32_t)(came.why == 0 && tells("group\ncollapse 1 2 200 0 0\nclose kept\n")), 1);
    is("a vertex of the third", topo_solid(&t, 12, &fault), TOPO_DONE);
    topo_forget(&t);
    is("keeps it", stays(9, TOPO_MOVES_SOLID), 1);
    is("its numbers", topo_counts(&t, &counted), TOPO_DONE);
    is("are as before", (uint32_t)(counted.vertices == 4 && counted.faces == 4), 1);
    topo_free(&t);
}

static void alone(void)
{
    /* an edge through the middle of a triangle, and beside it */
    const struct topo_five through = {{1, 1, -5}, {1, 1, 5}, {0, 0, 0}, {4, 0, 0}, {0, 4, 0}};
    const struct topo_five beside = {{9, 1, -5}, {9, 1, 5}, {0, 0, 0}, {4, 0, 0}, {0, 4, 0}};
    const struct topo_five behind = {{-9, 1, -5}, {-9, 1, 5}, {0, 0, 0}, {4, 0, 0}, {0, 4, 0}};
    const struct topo_five above = {{1, 1, 0}, {1, 1, 5}, {0, 0, 0}, {4, 0, 0}, {0, 4, 0}};
    const struct topo_five outside = {{1, 1, -268435457}, {1, 1, 5}, {0, 0, 0}, {4, 0, 0}, {0, 4, 0}};
    uint32_t so = 7;
    is("a point outside the box", topo_meets(&outside, &so), TOPO_RANGE);
    is("tells nothing", so, 7);
    is("through", topo_meets(&through, &so), TOPO_DONE);
    is("meets", so, 1);
    is("an end on the triangle", topo_meets(&above, &so), TOPO_DONE);
    is("meets too", so, 1);
    is("beside", topo_meets(&beside, &so), TOPO_DONE);
    is("does not", so, 0);
    is("beside and at rest", topo_passes(&beside, &beside, 0, &so), TOPO_DONE);
    is("passes", so, 1);
    is("from side to side", topo_passes(&beside, &behind, 10, &so), TOPO_DONE);
    is("does not pass", so, 0);
    is("a depth of 11", topo_passes(&beside, &beside, 11, &so), TOPO_RANGE);
    is("a depth of more than eight bits", topo_passes(&beside, &beside, 256, &so), TOPO_RANGE);
    is("the version", topo_version(), 2);
    is("the version of the calls", topo_calls(), TOPO_CALLS);
}

int main(void)
{
    shapes();
    shifts();
    groups();
    passes();
    tables();
    left();
    numbered();
    edits_of_a_tetrahedron();
    edits_of_two_bodies();
    edits_that_are_none();
    edits_at_the_limit();
    groups_taken_back();
    numbered_anew();
    logs_begun();
    logs_of_ids();
    stars();
    components();
    joined_and_large();
    folds_closed();
    components_dropped();
    alone();
    printf("%d hold, %d do not\n", held, failed);
    return failed != 0;
}
