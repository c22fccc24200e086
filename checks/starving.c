/* Drives the library for C with each of its allocations refused in turn: the call must answer TOPO_NO_MEMORY, the tracker must then be
   stopped, read and freed, and nothing may be left. What only reads leaves the tracker as it was, and edits by ids do either. Prints how many
   allocations there were, or what was not so. */
#include "topo.h"

#include <stdio.h>
#include <stdlib.h>
#include <string.h>

/* the C library's own (glibc) */
void *__libc_malloc(size_t size);
void *__libc_realloc(void *old, size_t size);
void __libc_free(void *old);

/* how many more allocations succeed, and how many blocks are held, while counting */
static long left = -1, held;
static int counting;

static int fails(void)
{
    if (!counting || left < 0)
        return 0;
    if (left == 0)
        return 1;
    --left;
    return 0;
}

void *malloc(size_t size)
{
    if (fails())
        return 0;
    held += counting;
    return __libc_malloc(size);
}

void *realloc(void *old, size_t size)
{
    if (fails())
        return 0;
    held += counting && !old;
    return __libc_realloc(old, size);
}

void free(void *old)
{
    held -= counting && old;
    __libc_free(old);
}

static const struct topo_point points[] = {{0, 0, 0}, {40, 0, 0}, {0, 40, 0}, {0, 0, 40}};
static const struct topo_triangle faces[] = {{1, 3, 2}, {1, 2, 4}, {2, 3, 4}, {1, 4, 3}};
static struct topo_vertex vertex_rows[4096];
static struct topo_face face_rows[4096];
static struct topo_component component_rows[64];

/* what the call that was made last does where there is no memory, and the numbers of the tracker before it */
static enum { STOPS, STAYS, EITHER } wanting;
static struct topo_counted before;

static void next(struct topo *t, int what)
{
    wanting = what;
    topo_counts(t, &before);
}

/* a log is begun, a mesh is saved in it, and it is ended */
static uint32_t in_a_log(struct topo *t)
{
    uint32_t number = 77, code;
    next(t, STAYS);
    if ((code = topo_begin_log(t)) != TOPO_DONE)
        return code;
    next(t, STOPS);
    if ((code = topo_save(t, &number)) != TOPO_DONE)
        return number == 77 ? code : 99;
    next(t, STOPS);
    return topo_end_log(t);
}

/* edits by ids, in a group that is then taken back, between looks at stars: what is told where it is not done is told too */
static uint32_t by_ids(struct topo *t, struct topo_fault *fault)
{
    static const struct topo_asked asked[] = {{TOPO_SPLIT, 1, 2, 0, 0}, {TOPO_COLLAPSED, 9, 3, 0, 0}, {TOPO_PINCHED, 4, 0, 0, 0}, {TOPO_FLIPPED, 1, 3, 0, 0}, {TOPO_SPLIT, 3, 4, 0, 0},
        {TOPO_ZIPPED, 1, 3, 2, 4}, {TOPO_COLLAPSED, 1, 3, 0, 0}};
    struct topo_answered answers[7];
    size_t taken = 77, size = 77;
    uint32_t became = 77, code;
    memset(answers, 77, sizeof answers);
    next(t, EITHER);
    if ((code = topo_edit_each(t, asked, 7, answers, 7, &taken)) != TOPO_DONE)
        return taken == 77 && answers[0].why == answers[6].why ? code : 99;
    next(t, STAYS);
    if ((code = topo_star(t, 2, face_rows, 4096, &size)) != TOPO_DONE)
        return size == 77 ? code : 99;
    size = 77;
    if ((code = topo_beside(t, 2, 4, face_rows, 4096, &size)) != TOPO_DONE)
        return size == 77 ? code : 99;
    size = 77;
    if ((code = topo_components(t, component_rows, 64, &size)) != TOPO_DONE)
        return size == 77 ? code : 99;
    next(t, STOPS);
    if ((code = topo_open(t, fault)) != TOPO_DONE)
        return code;
    next(t, EITHER);
    if ((code = topo_edit_each(t, asked + 4, 1, answers, 7, &taken)) != TOPO_DONE)
        return taken == 7 ? code : 99;
    next(t, STOPS);
    if ((code = topo_undo(t, &became)) != TOPO_DONE)
        return became == 77 ? code : 99;
    if (became != TOPO_TAKEN_BACK)
        return 99;
    next(t, STAYS);
    if ((code = topo_renumber(t)) != TOPO_DONE)
        return code;
    return in_a_log(t);
}

/* makes a tracker, another in its place, and works with that twice over, up to the first call that is not done */
static uint32_t work(struct topo *t, struct topo_fault *fault)
{
    struct topo_way way;
    struct topo_edits edits;
    uint32_t kept, code;
    int k;
    next(t, STOPS);
    code = topo_new(points, 4, faces, 4, t, fault);
    if (code == TOPO_DONE)
        code = topo_new(points, 4, faces, 4, t, fault);
    for (k = 0; k < 2 && code == TOPO_DONE; ++k) {
        next(t, STOPS);
        if ((code = topo_open(t, fault)) == TOPO_DONE && (code = topo_shift(t, 1, -3, -3, 0, fault)) == TOPO_DONE
            && (code = topo_step(t, &way, fault)) == TOPO_DONE && (code = topo_split(t, 30, &edits, fault)) == TOPO_DONE
            && (code = topo_close(t, &kept, fault)) == TOPO_DONE && (code = topo_collapse(t, 12, &edits, fault)) == TOPO_DONE)
            code = by_ids(t, fault);
    }
    return code;
}

/* whether a tracker that is stopped does nothing more, and tells of stars still */
static int only_reads(struct topo *t)
{
    static const struct topo_asked asked = {TOPO_SPLIT, 1, 2, 0, 0};
    struct topo_answered answer = {77, 77, 77, 77, 77, 77, 77};
    struct topo_way way;
    struct topo_fault fault;
    size_t taken = 77, size;
    uint32_t became = 77;
    return topo_step(t, &way, &fault) == TOPO_STOPPED && topo_edit_each(t, &asked, 1, &answer, 1, &taken) == TOPO_STOPPED && topo_undo(t, &became) == TOPO_STOPPED
        && taken == 77 && answer.why == 77 && became == 77 && topo_star(t, 1, face_rows, 4096, &size) == TOPO_DONE && topo_beside(t, 1, 3, face_rows, 4096, &size) == TOPO_DONE;
}

/* whether a tracker for which there was no memory is stopped, or as it was, as the call wants it */
static int is_as_wanted(struct topo *t)
{
    struct topo_way way;
    struct topo_fault fault;
    struct topo_counted after;
    const int stopped = topo_set(t, 6, 3, 1, 6) == TOPO_STOPPED;
    topo_counts(t, &after);
    if (stopped)
        return wanting != STAYS && only_reads(t);
    return wanting != STOPS && after.lines == before.lines && after.vertices == before.vertices && after.faces == before.faces
        && after.next_vertex == before.next_vertex && after.next_face == before.next_face && topo_step(t, &way, &fault) == TOPO_DONE;
}

int main(void)
{
    long n;
    for (n = 0;; ++n) {
        struct topo t = TOPO_NONE;
        struct topo_fault fault = {0, 0, 0, 0};
        uint32_t code;
        size_t size;
        held = 0;
        left = n;
        counting = 1;
        code = work(&t, &fault);
        left = -1;
        if (code != TOPO_DONE && code != TOPO_NO_MEMORY) {
            printf("allocation %ld: code %u\n", n + 1, (unsigned)code);
            return 1;
        }
        if (t.live && code == TOPO_NO_MEMORY && !is_as_wanted(&t)) {
            printf("allocation %ld: the tracker goes on, or is stopped, or is another\n", n + 1);
            return 1;
        }
        if (t.live && (topo_points(&t, vertex_rows, 4096, &size) != TOPO_DONE || topo_faces(&t, face_rows, 4096, &size) != TOPO_DONE)) {
            printf("allocation %ld: the tracker is not read\n", n + 1);
            return 1;
        }
        topo_free(&t);
        counting = 0;
        if (held != 0) {
            printf("allocation %ld: %ld blocks are left\n", n + 1, held);
            return 1;
        }
        if (code == TOPO_DONE)
            break;
    }
    printf("%ld allocations\n", n);
    return 0;
}
