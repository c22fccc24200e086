/* A policy of the caller's own: the edges of a box are split one by one, and a split stays only where the faces that it makes have good angles.
 * What the tracker tells goes to standard output as a log file, and what came of it to standard error.
 *
 *     cc -std=c99 -O2 -I library examples/library/policy.c library/out/libtopo.a -o policy -lm && ./policy > log.txt
 */
#include "topo.h"

#include <math.h>
#include <stdio.h>

static struct topo t = TOPO_NONE;
static struct topo_fault fault;

/* where a vertex stands: of the rows that were read last */
static struct topo_vertex rows[64];
static size_t row_count;

static const struct topo_vertex *at(uint32_t v)
{
    size_t i;
    for (i = 0; i < row_count && rows[i].id != v; ++i)
        ;
    return &rows[i];
}

/* the cosine of the angle at a corner p of a face, to q and r */
static double cosine(uint32_t p, uint32_t q, uint32_t r)
{
    const struct topo_vertex *o = at(p), *a = at(q), *b = at(r);
    const double x = a->x - o->x, y = a->y - o->y, z = a->z - o->z, u = b->x - o->x, v = b->y - o->y, w = b->z - o->z;
    return (x * u + y * v + z * w) / sqrt((x * x + y * y + z * z) * (u * u + v * v + w * w));
}

/* whether no angle of a face is below 30 degrees */
static int is_good(const struct topo_face *f)
{
    const double most = 0.8660254;
    return cosine(f->a, f->b, f->c) <= most && cosine(f->b, f->c, f->a) <= most && cosine(f->c, f->a, f->b) <= most;
}

/* Splits an edge in a group, looks at the faces of the new vertex, and keeps the group or takes it back; `kept` tells which. */
static uint32_t split_if_good(uint32_t a, uint32_t b, int *kept)
{
    const struct topo_asked split = {TOPO_SPLIT, a, b, 0, 0};
    struct topo_answered answer;
    struct topo_face star[4];
    size_t taken, size, i;
    uint32_t became, code = topo_open(&t, &fault);
    if (code == TOPO_DONE)
        code = topo_edit_each(&t, &split, 1, &answer, 1, &taken);
    *kept = code == TOPO_DONE && answer.why == 0;
    if (*kept && (code = topo_star(&t, answer.a, star, 4, &size)) == TOPO_DONE) {
        rows[row_count++] = (struct topo_vertex){answer.a, answer.x, answer.y, answer.z};
        for (i = 0; i < size; ++i)
            *kept = *kept && is_good(&star[i]);
        row_count -= !*kept;
    }
    if (code != TOPO_DONE)
        return code;
    return *kept ? topo_close(&t, &became, &fault) : topo_undo(&t, &became);
}

static uint32_t run(void)
{
    struct topo_face faces[12];
    char text[4096];
    size_t size, f;
    int kept = 0, splits = 0, looks = 0;
    uint32_t code = topo_begin_log(&t);
    if (code == TOPO_DONE)
        code = topo_points(&t, rows, 64, &row_count);
    if (code == TOPO_DONE)
        code = topo_faces(&t, faces, 12, &size);
    for (f = 0; f < 36 && code == TOPO_DONE; ++f) {
        const struct topo_face *of = &faces[f / 3];
        const uint32_t corners[] = {of->a, of->b, of->c}, a = corners[f % 3], b = corners[(f + 1) % 3];
        /* each edge once, by the face that runs it upward */
        if (a < b && (code = split_if_good(a, b, &kept)) == TOPO_DONE) {
            ++looks;
            splits += kept;
        }
    }
    if (code == TOPO_DONE)
        code = topo_end_log(&t);
    if (code == TOPO_DONE && (code = topo_log(&t, text, sizeof text, &size)) == TOPO_DONE)
        printf("%.*s", (int)size, text);
    fprintf(stderr, "%d edges were split, and %d splits kept\n", looks, splits);
    return code;
}

int main(void)
{
    static const struct topo_point corners[] = {{0, 0, 0}, {400, 0, 0}, {0, 400, 0}, {400, 400, 0}, {0, 0, 400}, {400, 0, 400}, {0, 400, 400}, {400, 400, 400}};
    static const struct topo_triangle faces[] = {{1, 3, 4}, {1, 4, 2}, {5, 6, 8}, {5, 8, 7}, {1, 2, 6}, {1, 6, 5}, {3, 7, 8}, {3, 8, 4}, {1, 5, 7}, {1, 7, 3}, {2, 4, 8}, {2, 8, 6}};
    uint32_t code = topo_new(corners, 8, faces, 12, &t, &fault);
    if (code == TOPO_DONE)
        code = run();
    if (code != TOPO_DONE)
        fprintf(stderr, "code %u, why %u at %u %u %u\n", (unsigned)code, (unsigned)fault.why, (unsigned)fault.a, (unsigned)fault.b, (unsigned)fault.c);
    topo_free(&t);
    return code == TOPO_DONE ? 0 : 1;
}
