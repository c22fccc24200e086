/* N * N * N cubes that go there and back through the library: prints the log of the job; or reads events in its place, or keeps no lines.

       library_cubes N STEPS [log | events | none]
 */
#include "topo.h"

#include <stdio.h>
#include <stdlib.h>
#include <string.h>

static void must(uint32_t code, const struct topo_fault *fault)
{
    if (code != TOPO_DONE) {
        fprintf(stderr, "code %u, why %u at %u\n", (unsigned)code, (unsigned)fault->why, (unsigned)fault->a);
        exit(1);
    }
}

int main(int count, char **words)
{
    static const int corners[8][3] = {{0, 0, 0}, {40, 0, 0}, {40, 40, 0}, {0, 40, 0}, {0, 0, 40}, {40, 0, 40}, {40, 40, 40}, {0, 40, 40}};
    static const unsigned quads[6][4] = {{1, 4, 3, 2}, {5, 6, 7, 8}, {1, 2, 6, 5}, {2, 3, 7, 6}, {3, 4, 8, 7}, {4, 1, 5, 8}};
    const int n = count > 1 ? atoi(words[1]) : 12, steps = count > 2 ? atoi(words[2]) : 64;
    const size_t cubes = (size_t)n * (size_t)n * (size_t)n, vertices = 8 * cubes, faces = 12 * cubes;
    struct topo_point *points = malloc(vertices * sizeof *points);
    struct topo_triangle *sides = malloc(faces * sizeof *sides);
    struct topo_vertex *asked = malloc(vertices * sizeof *asked);
    struct topo t = TOPO_NONE;
    struct topo_fault fault = {0, 0, 0, 0};
    struct topo_way way;
    const char *what = count > 3 ? words[3] : "log";
    struct topo_event *events = 0;
    char *text = 0;
    size_t room = 0, size = 0, c, v, f = 0;
    int k, i;
    if (!points || !sides || !asked)
        return 2;
    for (c = 0; c < cubes; ++c) {
        for (i = 0; i < 8; ++i) {
            points[8 * c + (size_t)i].x = 100 * (int)(c % (size_t)n) + corners[i][0];
            points[8 * c + (size_t)i].y = 100 * (int)(c / (size_t)n % (size_t)n) + corners[i][1];
            points[8 * c + (size_t)i].z = 100 * (int)(c / (size_t)n / (size_t)n) + corners[i][2];
        }
        for (i = 0; i < 12; ++i) {
            const unsigned *q = quads[i / 2], base = 8 * (unsigned)c;
            sides[f].a = base + q[0];
            sides[f].b = base + q[1 + i % 2];
            sides[f++].c = base + q[2 + i % 2];
        }
    }
    must(topo_new(points, vertices, sides, faces, &t, &fault), &fault);
    if (!strcmp(what, "none"))
        must(topo_keep(&t, 0), &fault);
    printf("topo log %u\nmesh 0 %lu %lu\n", (unsigned)topo_version(), (unsigned long)vertices, (unsigned long)faces);
    for (k = 0; k < steps; ++k) {
        for (v = 0; v < vertices; ++v) {
            const int cube = (int)(v / 8) + 1, sign = k % 2 ? -1 : 1;
            asked[v].id = (uint32_t)v + 1;
            asked[v].x = sign * (1 + (38 + 7 * cube) % 9);
            asked[v].y = sign * (1 + (38 + 7 * cube + 13) % 9);
            asked[v].z = sign * (1 + (38 + 7 * cube + 26) % 9);
        }
        must(topo_shift_each(&t, asked, vertices, &fault), &fault);
        must(topo_step(&t, &way, &fault), &fault);
        if (!strcmp(what, "none"))
            continue;
        if (!strcmp(what, "events")) {
            while (topo_events(&t, events, room, &size) == TOPO_RANGE) {
                free(events);
                events = malloc((room = size) * sizeof *events);
                if (!events)
                    return 2;
            }
            must(topo_forget(&t), &fault);
            continue;
        }
        while (topo_log(&t, text, room, &size) == TOPO_RANGE) {
            free(text);
            text = malloc(room = size);
            if (!text)
                return 2;
        }
        fwrite(text, 1, size, stdout);
    }
    puts("end");
    topo_free(&t);
    free(text);
    free(events);
    free(points);
    free(sides);
    free(asked);
    return 0;
}
