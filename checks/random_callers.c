/* A caller whose policy is dice: reads the text of a mesh with whole coordinates, and then shifts, steps, edits by passes and by ids, opens groups,
   keeps them and takes them back, and looks at stars. Prints what it did as a log file, and stores the tracker's own mesh in FOLDER wherever it puts
   a line `mesh K V F`, under the name own-K.obj, as a replay of the log would. What answers and stars tell is compared with the lines and with all
   faces; what is not so goes to standard error. FOLDER/tally.txt tells how many edits by ids were done of each kind, and refused for each reason.

       random_callers MESH SEED FOLDER

   The exit status is 3 where no tracker is made of the mesh, and 1 where something is not so.
 */
#include "topo.h"

#include <math.h>
#include <stdio.h>
#include <stdlib.h>
#include <string.h>

enum { MOST = 1 << 14, MANY_FACES = 500, MOST_GROUPS = 8, MOST_EDITS = 8 };

static struct topo t = TOPO_NONE;
static struct topo_fault fault;
static struct topo_vertex vertices[MOST];
static struct topo_face faces[MOST];
static size_t vertex_count, face_count;
static uint32_t groups, meshes, next_vertex;
static unsigned long done[TOPO_PINCHED + 1], against[TOPO_MOVES_SOLID + 1], undone;
static uint64_t rolled;
static int wrong;

/* a number from 0 to sides - 1 */
static uint32_t dice(uint32_t sides)
{
    rolled = rolled * 6364136223846793005u + 1442695040888963407u;
    return (uint32_t)((rolled >> 33) % sides);
}

static void check(int so, const char *what)
{
    if (!so) {
        fprintf(stderr, "not so: %s\n", what);
        wrong = 1;
    }
}

/* ends where a call answers anything but that it is done, or that it is refused, if it may be */
static void must(uint32_t code, int may_refuse, const char *call)
{
    if (code != TOPO_DONE && !(may_refuse && code == TOPO_REFUSED)) {
        fprintf(stderr, "%s: code %u\n", call, (unsigned)code);
        exit(1);
    }
}

/* what was told since the last call, which is printed and stays until the next one */
static const char *told(void)
{
    static char text[1 << 20];
    size_t size = 0;
    must(topo_log(&t, text, sizeof text - 1, &size), 0, "topo_log");
    text[size] = 0;
    fputs(text, stdout);
    return text;
}

/* reads what lives */
static void look(void)
{
    struct topo_counted counted;
    must(topo_points(&t, vertices, MOST, &vertex_count), 0, "topo_points");
    must(topo_faces(&t, faces, MOST, &face_count), 0, "topo_faces");
    must(topo_counts(&t, &counted), 0, "topo_counts");
    check(counted.vertices == vertex_count && counted.faces == face_count, "the counts");
    next_vertex = counted.next_vertex;
}

/* ---- picks */

/* a live vertex, or now and then one that may not live */
static uint32_t a_vertex(void)
{
    return vertex_count && dice(30) ? vertices[dice((uint32_t)vertex_count)].id : 1 + dice(next_vertex + 2);
}

static const struct topo_vertex *row_of(uint32_t id)
{
    size_t i;
    for (i = 0; i < vertex_count; ++i)
        if (vertices[i].id == id)
            return &vertices[i];
    return 0;
}

/* the ends of an edge, in either order, or now and then those of none */
static void an_edge(uint32_t *a, uint32_t *b)
{
    const struct topo_face *f = &faces[face_count ? dice((uint32_t)face_count) : 0];
    const uint32_t corners[] = {f->a, f->b, f->c}, at = dice(3);
    *a = corners[at];
    *b = corners[(at + 1) % 3];
    if (!face_count || dice(30) == 0)
        do {
            *a = a_vertex();
            *b = 1 + dice(next_vertex + 2);
        } while (*a == *b);
}

static double middle(uint32_t a, uint32_t b, int axis)
{
    const struct topo_vertex *p = row_of(a), *q = row_of(b);
    if (!p || !q)
        return 0;
    return axis == 0 ? (p->x + q->x) / 2.0 : axis == 1 ? (p->y + q->y) / 2.0 : (p->z + q->z) / 2.0;
}

/* how far the middles of two edges, or those of two vertices, are apart */
static double apart(uint32_t a, uint32_t b, uint32_t c, uint32_t d)
{
    double sum = 0;
    int axis;
    for (axis = 0; axis < 3; ++axis)
        sum += pow(middle(a, b, axis) - middle(c, d, axis), 2);
    return sqrt(sum);
}

/* the length of an edge, and a part of it */
static uint32_t a_length(uint32_t percent)
{
    uint32_t a, b;
    an_edge(&a, &b);
    return (uint32_t)(apart(a, a, b, b) * percent / 100);
}

/* the nearest of some edges to an edge */
static void a_near_edge(const struct topo_asked *e, uint32_t *c, uint32_t *d)
{
    double least = HUGE_VAL;
    int i;
    for (i = 0; i < 30; ++i) {
        uint32_t a, b;
        an_edge(&a, &b);
        if (a != e->a && a != e->b && b != e->a && b != e->b && apart(e->a, e->b, a, b) < least) {
            least = apart(e->a, e->b, a, b);
            *c = a;
            *d = b;
        }
    }
}

/* a vertex with many faces, of some */
static uint32_t a_full_vertex(void)
{
    size_t most = 0, size;
    uint32_t best = a_vertex();
    int i;
    for (i = 0; i < 6; ++i) {
        static struct topo_face row[MOST];
        const uint32_t v = a_vertex();
        must(topo_star(&t, v, row, MOST, &size), 0, "topo_star");
        if (size > most) {
            most = size;
            best = v;
        }
    }
    return best;
}

/* ---- edits by ids */

static struct topo_asked an_edit(void)
{
    static const uint32_t kinds[] = {TOPO_SPLIT, TOPO_FLIPPED, TOPO_FLIPPED, TOPO_COLLAPSED, TOPO_COLLAPSED, TOPO_ZIPPED, TOPO_PINCHED};
    struct topo_asked e = {0, 0, 0, 0, 0};
    e.kind = kinds[dice(7)];
    an_edge(&e.a, &e.b);
    if (e.kind == TOPO_SPLIT && face_count > MANY_FACES)
        e.kind = TOPO_COLLAPSED;
    if (e.kind == TOPO_ZIPPED) {
        an_edge(&e.c, &e.d);
        a_near_edge(&e, &e.c, &e.d);
    }
    if (e.kind == TOPO_PINCHED)
        e.a = a_full_vertex();
    return e;
}

/* the beginning of the line that an edit and its answer have in the log */
static void line_of(char *line, const struct topo_asked *e, const struct topo_answered *answer)
{
    static const char *const names[] = {"", "", "split", "flip", "collapse", "zip", "pinch"};
    static const char *const reasons[] = {"", "noedge", "crowded", "edge", "shared", "full", "doubled", "onefan", "hit", "solid"};
    const unsigned a = e->a < e->b ? e->a : e->b, b = e->a < e->b ? e->b : e->a, c = e->c < e->d ? e->c : e->d, d = e->c < e->d ? e->d : e->c;
    line += sprintf(line, "%s%s ", answer->why ? "no " : "", names[e->kind]);
    line += e->kind == TOPO_PINCHED ? sprintf(line, "%u", (unsigned)e->a) : sprintf(line, "%u %u", a, b);
    if (e->kind == TOPO_ZIPPED)
        line += sprintf(line, " %u %u", c, d);
    if (answer->why) {
        line += sprintf(line, " %s", reasons[answer->why]);
        if (answer->why == TOPO_HIT)
            sprintf(line, " %u %u %u", (unsigned)answer->a, (unsigned)answer->b, (unsigned)answer->c);
        return;
    }
    if (e->kind == TOPO_SPLIT)
        line += sprintf(line, " %u", (unsigned)answer->a);
    if (e->kind == TOPO_COLLAPSED)
        check(answer->a == a, "the end that a collapse leaves");
    if (e->kind == TOPO_SPLIT || e->kind == TOPO_COLLAPSED || e->kind == TOPO_PINCHED)
        line += sprintf(line, " %d %d %d", (int)answer->x, (int)answer->y, (int)answer->z);
    if (e->kind == TOPO_ZIPPED)
        sprintf(line, " %u", (unsigned)answer->b);
}

/* whether what follows in the line of a pinch are as many copies as were told, with ids that follow on the first */
static int has_copies(const char *rest, const struct topo_answered *answer)
{
    uint32_t i;
    int used = 0, x, y, z;
    unsigned w;
    for (i = 0; i < answer->b; ++i, rest += used)
        if (sscanf(rest, " %u %d %d %d%n", &w, &x, &y, &z, &used) != 4 || w != answer->a + i)
            return 0;
    return *rest == '\n';
}

/* compares the lines of edits with their answers */
static void check_lines(const char *text, const struct topo_asked *asked, const struct topo_answered *answers, size_t taken)
{
    size_t i;
    for (i = 0; i < taken; ++i) {
        char line[256];
        const char *rest;
        line_of(line, &asked[i], &answers[i]);
        rest = text + strlen(line);
        if (strncmp(text, line, strlen(line)) != 0 || !(answers[i].why == 0 && asked[i].kind == TOPO_PINCHED ? has_copies(rest, &answers[i]) : *rest == '\n')) {
            fprintf(stderr, "the answer says %s\n", line);
            check(0, "the line of an edit");
            return;
        }
        text = strchr(text, '\n') + 1;
        ++*(answers[i].why ? &against[answers[i].why] : &done[asked[i].kind]);
    }
    check(*text == 0, "as many lines as answers");
}

static void edit_each(void)
{
    struct topo_asked asked[MOST_EDITS];
    struct topo_answered answers[MOST_EDITS];
    const size_t count = 1 + dice(MOST_EDITS);
    size_t taken = 77, i;
    for (i = 0; i < count; ++i)
        asked[i] = an_edit();
    if (dice(20) == 0) {
        struct topo_asked *bad = &asked[dice((uint32_t)count)];
        bad->a = dice(2) ? 0 : 2147483649u;
        check(topo_edit_each(&t, asked, count, answers, MOST_EDITS, &taken) == TOPO_RANGE && taken == 77, "a row that is none");
        check(*told() == 0, "of which nothing is told");
        return;
    }
    must(topo_edit_each(&t, asked, count, answers, MOST_EDITS, &taken), 0, "topo_edit_each");
    check(taken == count || (groups && 0 < taken && taken < count && answers[taken - 1].why), "how many were asked");
    for (i = 0; i + 1 < taken; ++i)
        check(!groups || answers[i].why == 0, "the first refused one ends a list in a group");
    check_lines(told(), asked, answers, taken);
}

/* ---- other calls */

static void shift(void)
{
    const int32_t far = (int32_t)a_length(20 + dice(60)) + 1;
    struct topo_vertex rows[16];
    const size_t count = dice(16);
    size_t i;
    for (i = 0; i < count + 1; ++i) {
        rows[i].id = a_vertex();
        rows[i].x = (int32_t)dice(2 * (uint32_t)far + 1) - far;
        rows[i].y = (int32_t)dice(2 * (uint32_t)far + 1) - far;
        rows[i].z = (int32_t)dice(2 * (uint32_t)far + 1) - far;
    }
    if (dice(5) == 0)
        must(topo_shift_all(&t, rows[0].x, rows[0].y, rows[0].z, &fault), 1, "topo_shift_all");
    else if (dice(3) == 0)
        must(topo_shift(&t, rows[0].id, rows[0].x, rows[0].y, rows[0].z, &fault), 1, "topo_shift");
    else
        must(topo_shift_each(&t, rows, count, &fault), 1, "topo_shift_each");
}

static void step(void)
{
    struct topo_way way;
    shift();
    must(topo_step(&t, &way, &fault), 1, "topo_step");
}

/* a pass by a table of up to three cells each way, whose bands are near a length */
static void fit_by_cells(uint32_t length)
{
    struct topo_band bands[27];
    struct topo_edits edits;
    const struct topo_vertex *corner = vertices + dice((uint32_t)vertex_count);
    const struct topo_cells cells = {corner->x, corner->y, corner->z, length + 1, 1 + dice(3), 1 + dice(3), 1 + dice(3)};
    const uint32_t count = cells.nx * cells.ny * cells.nz;
    uint32_t i;
    for (i = 0; i < count; ++i) {
        bands[i].low = length / (2 + dice(4));
        bands[i].high = 2 * length + 1 + dice(length + 1);
    }
    must(topo_fit_by(&t, &cells, bands, count, &edits, &fault), 0, "topo_fit_by");
}

static void pass(void)
{
    struct topo_edits edits;
    const uint32_t length = a_length(100), kind = dice(6);
    if (kind == 0 && face_count < MANY_FACES)
        must(topo_split(&t, length, &edits, &fault), 0, "topo_split");
    else if (kind == 1 && vertex_count > 0 && dice(2))
        fit_by_cells(length);
    else if (kind == 1)
        must(topo_fit(&t, length / 4, 2 * length + 1, &edits), 0, "topo_fit");
    else if (kind == 2)
        must(topo_flip(&t, &edits, &fault), 0, "topo_flip");
    else if (kind == 3)
        must(topo_zip(&t, length / 3, &edits, &fault), 0, "topo_zip");
    else if (kind == 4)
        must(topo_pinch(&t, &edits, &fault), 0, "topo_pinch");
    else
        must(topo_collapse(&t, length / 2, &edits, &fault), 0, "topo_collapse");
}

/* opens a group, or ends that which was opened last */
static void group(void)
{
    uint32_t became = 77;
    const uint32_t what = dice(5);
    if (what < 2 && groups < MOST_GROUPS) {
        must(topo_open(&t, &fault), 0, "topo_open");
        ++groups;
    } else if (what == 2) {
        must(topo_close(&t, &became, &fault), 0, "topo_close");
        check((became == TOPO_NO_GROUP) == (groups == 0), "a group is closed where one is open");
        groups -= groups > 0;
    } else {
        must(topo_undo(&t, &became), 0, "topo_undo");
        check(became == (groups ? TOPO_TAKEN_BACK : TOPO_NO_GROUP), "a group is taken back where one is open");
        undone += groups > 0;
        groups -= groups > 0;
    }
}

/* makes a vertex solid, or both ends of an edge */
static void solid(void)
{
    uint32_t a, b;
    an_edge(&a, &b);
    must(topo_solid(&t, a, &fault), 1, "topo_solid");
    if (dice(2))
        must(topo_solid(&t, b, &fault), 1, "topo_solid");
}

/* compares the star of a vertex, and the faces beside an edge, with all faces */
static void stars(void)
{
    static struct topo_face row[MOST];
    uint32_t a, b;
    size_t size, i, at = 0;
    an_edge(&a, &b);
    must(topo_star(&t, a, row, MOST, &size), 0, "topo_star");
    for (i = 0; i < face_count; ++i)
        if (faces[i].a == a || faces[i].b == a || faces[i].c == a)
            check(at < size && memcmp(&row[at], &faces[i], sizeof faces[i]) == 0, "a face of a star"), ++at;
    check(at == size, "how many faces a star has");
    at = 0;
    must(topo_beside(&t, a, b, row, MOST, &size), 0, "topo_beside");
    for (i = 0; i < face_count; ++i)
        if ((faces[i].a == a || faces[i].b == a || faces[i].c == a) && (faces[i].a == b || faces[i].b == b || faces[i].c == b))
            check(at < size && memcmp(&row[at], &faces[i], sizeof faces[i]) == 0, "a face beside an edge"), ++at;
    check(at == size, "how many faces are beside an edge");
}

/* whether a face has both as corners */
static int has_both(const struct topo_face *f, uint32_t a, uint32_t b)
{
    return (f->a == a || f->b == a || f->c == a) && (f->a == b || f->b == b || f->c == b);
}

/* how many edges a face has that none before it has */
static int new_edges(size_t i)
{
    const uint32_t corners[] = {faces[i].a, faces[i].b, faces[i].c};
    int k, count = 0;
    for (k = 0; k < 3; ++k) {
        size_t j = 0;
        while (j < i && !has_both(&faces[j], corners[k], corners[(k + 1) % 3]))
            ++j;
        count += j == i;
    }
    return count;
}

/* compares the components with a plain look at all faces: each vertex gets the least place of a vertex of its component; the low words are summed
   modulo 2^64, and the whole volumes as doubles */
static void components(void)
{
    static struct topo_component row[MOST], seen[MOST];
    static size_t least[MOST], name[MOST];
    static double volume[MOST], sizes[MOST];
    size_t size, i, k, count = 0;
    int more = 1;
    for (i = 0; i < vertex_count; ++i)
        least[i] = i;
    while (more)
        for (i = 0, more = 0; i < face_count; ++i) {
            size_t *at[3];
            at[0] = &least[row_of(faces[i].a) - vertices], at[1] = &least[row_of(faces[i].b) - vertices], at[2] = &least[row_of(faces[i].c) - vertices];
            for (k = 0; k < 9; ++k)
                if (*at[k / 3] > *at[k % 3])
                    *at[k / 3] = *at[k % 3], more = 1;
        }
    for (i = 0; i < face_count; ++i) {
        const struct topo_vertex *p = row_of(faces[i].a), *q = row_of(faces[i].b), *r = row_of(faces[i].c);
        const double a = p->x, b = p->y, c = p->z, d = q->x, e = q->y, f = q->z, g = r->x, h = r->y, l = r->z;
        const uint64_t low = (uint64_t)(int64_t)p->x * ((uint64_t)(int64_t)q->y * (uint64_t)(int64_t)r->z - (uint64_t)(int64_t)q->z * (uint64_t)(int64_t)r->y)
            - (uint64_t)(int64_t)p->y * ((uint64_t)(int64_t)q->x * (uint64_t)(int64_t)r->z - (uint64_t)(int64_t)q->z * (uint64_t)(int64_t)r->x)
            + (uint64_t)(int64_t)p->z * ((uint64_t)(int64_t)q->x * (uint64_t)(int64_t)r->y - (uint64_t)(int64_t)q->y * (uint64_t)(int64_t)r->x);
        for (k = 0; k < count && name[k] != least[p - vertices]; ++k)
            ;
        if (k == count) {
            const struct topo_component none = {vertices[least[p - vertices]].id, 0, 0, 0, 0};
            seen[k] = none, volume[k] = sizes[k] = 0, name[count++] = least[p - vertices];
        }
        seen[k].faces += 1, seen[k].euler += 1 - new_edges(i), seen[k].volume6_low += low;
        volume[k] += a * (e * l - f * h) - b * (d * l - f * g) + c * (d * h - e * g);
        sizes[k] += fabs(a) * (fabs(e * l) + fabs(f * h)) + fabs(b) * (fabs(d * l) + fabs(f * g)) + fabs(c) * (fabs(d * h) + fabs(e * g));
    }
    for (i = 0; i < vertex_count; ++i) {
        for (k = 0; k < count && name[k] != least[i]; ++k)
            ;
        if (k < count)
            seen[k].euler += 1;
    }
    must(topo_components(&t, row, MOST, &size), 0, "topo_components");
    check(size == count, "how many components there are");
    for (k = 0; k < count && k < size; ++k) {
        const int below = row[k].volume6_high < 0;
        const uint64_t low = below ? 0 - row[k].volume6_low : row[k].volume6_low;
        const uint64_t high = below ? 0 - (uint64_t)row[k].volume6_high - (low != 0) : (uint64_t)row[k].volume6_high;
        const double size_of = ldexp((double)high, 64) + (double)low, whole = below ? -size_of : size_of;
        check(row[k].vertex == seen[k].vertex && row[k].faces == seen[k].faces && row[k].euler == seen[k].euler, "a component");
        check(row[k].volume6_low == seen[k].volume6_low && fabs(whole - volume[k]) <= 1e-9 * sizes[k] + 1e-3, "the volume of a component");
    }
}

/* stores the tracker's own mesh, and has its line told: the first begins a log */
static void save(const char *folder)
{
    char name[1024];
    FILE *out;
    size_t i;
    uint32_t number = 0;
    look();
    must(meshes ? topo_save(&t, &number) : topo_begin_log(&t), 0, "topo_save");
    check(number == meshes, "a mesh has another number");
    told();
    snprintf(name, sizeof name, "%s/own-%06u.obj", folder, (unsigned)meshes++);
    if (!(out = fopen(name, "w")))
        exit(2);
    for (i = 0; i < vertex_count; ++i)
        fprintf(out, "v %d %d %d\n", (int)vertices[i].x, (int)vertices[i].y, (int)vertices[i].z);
    for (i = 0; i < face_count; ++i)
        fprintf(out, "f %u %u %u\n", (unsigned)(row_of(faces[i].a) - vertices + 1), (unsigned)(row_of(faces[i].b) - vertices + 1), (unsigned)(row_of(faces[i].c) - vertices + 1));
    fclose(out);
}

static void go(const char *folder)
{
    const uint32_t what = dice(100);
    look();
    if (what < 40)
        edit_each();
    else if (what < 58)
        step();
    else if (what < 68)
        pass();
    else if (what < 83)
        group();
    else if (what < 86)
        solid();
    else if (what < 89)
        must(topo_set(&t, (uint32_t)dice(11), (uint32_t)dice(5), (uint32_t)dice(2), (uint32_t)dice(10)), 0, "topo_set");
    else if (what < 92)
        shift();
    else if (what < 97)
        stars(), components();
    else
        save(folder);
    told();
}

/* reads the mesh, and makes the tracker of it */
static uint32_t begin(FILE *mesh)
{
    static struct topo_point points[MOST];
    static struct topo_triangle corners[MOST];
    static char line[4096];
    size_t v = 0, f = 0;
    while (fgets(line, sizeof line, mesh) && v < MOST && f < MOST) {
        v += sscanf(line, "v %d %d %d", &points[v].x, &points[v].y, &points[v].z) == 3;
        f += sscanf(line, "f %u %u %u", &corners[f].a, &corners[f].b, &corners[f].c) == 3;
    }
    return topo_new(points, v, corners, f, &t, &fault);
}

int main(int count, char **words)
{
    char name[1024];
    FILE *mesh = count == 4 ? fopen(words[1], "r") : 0, *tally;
    uint32_t calls, i;
    if (!mesh)
        return 2;
    if (begin(mesh) != TOPO_DONE)
        return 3;
    rolled = strtoull(words[2], 0, 10);
    save(words[3]);
    for (calls = 10 + dice(50); calls; --calls)
        go(words[3]);
    save(words[3]);
    if (groups) {
        check(topo_end_log(&t) == TOPO_GROUPED, "a log ends in an open group");
        puts("end");
    } else
        must(topo_end_log(&t), 0, "topo_end_log");
    told();
    snprintf(name, sizeof name, "%s/tally.txt", words[3]);
    if (!(tally = fopen(name, "w")))
        return 2;
    for (i = TOPO_SPLIT; i <= TOPO_PINCHED; ++i)
        fprintf(tally, "done%u %lu\n", (unsigned)i, done[i]);
    for (i = TOPO_NO_EDGE; i <= TOPO_MOVES_SOLID; ++i)
        fprintf(tally, "against%u %lu\n", (unsigned)i, against[i]);
    fprintf(tally, "undone %lu\n", undone);
    fclose(tally);
    topo_free(&t);
    return wrong;
}
