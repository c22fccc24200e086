/* The smallest caller in C99: a tetrahedron is moved, and the lines that this tells are written.
 *
 *     cc -std=c99 -O2 example.c out/libtopo.a -o example && ./example
 */
#include "topo.h"

#include <stdio.h>

int main(void)
{
    static const struct topo_point points[] = {{0, 0, 0}, {4, 0, 0}, {0, 4, 0}, {0, 0, 4}};
    static const struct topo_triangle faces[] = {{1, 3, 2}, {1, 2, 4}, {2, 3, 4}, {1, 4, 3}};
    struct topo t = TOPO_NONE;
    struct topo_fault fault = {0, 0, 0, 0};
    struct topo_way way = {0, 0, 0};
    char text[256];
    size_t size = 0;
    uint32_t v, code = topo_new(points, 4, faces, 4, &t, &fault);

    for (v = 1; code == TOPO_DONE && v <= 4; ++v)
        code = topo_shift(&t, v, 1, 2, 3, &fault);
    if (code == TOPO_DONE)
        code = topo_step(&t, &way, &fault);
    if (code == TOPO_DONE)
        code = topo_log(&t, text, sizeof text, &size);
    if (code == TOPO_DONE)
        fwrite(text, 1, size, stdout);
    else
        fprintf(stderr, "code %u, why %u at %u %u %u\n", (unsigned)code, (unsigned)fault.why, (unsigned)fault.a, (unsigned)fault.b, (unsigned)fault.c);
    topo_free(&t);
    return code == TOPO_DONE ? 0 : 1;
}
