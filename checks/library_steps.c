/* Does a job of the program through the library: reads the text of a mesh with whole coordinates and that of steps, and prints the log. The lines
   `drive` and `save` are not the library's. The program's sizing is 20 to 60 as long as no coordinate is above 15; where one is, `fit` ends this with
   status 3. What calls tell as numbers is compared with the lines that they told, and what is not so goes to
   standard error.

       library_steps MESH STEPS
 */
#include "topo.h"

#include <stdio.h>
#include <stdlib.h>
#include <string.h>

static struct topo t = TOPO_NONE;
static struct topo_fault fault;
static struct topo_way way;
static struct topo_edits edits;
static uint32_t kept;
static uint32_t settings[4] = {6, 3, 1, 6};
static int wrong;

static void check(int so, const char *what, const char *line)
{
    if (!so) {
        fprintf(stderr, "%s: %s", what, line);
        wrong = 1;
    }
}

/* how many lines of a text begin with a word */
static size_t lines_of(const char *text, const char *word)
{
    size_t found = 0, size = strlen(word);
    const char *at = text;
    for (; at && *at; at = strchr(at, '\n') ? strchr(at, '\n') + 1 : 0)
        found += strncmp(at, word, size) == 0;
    return found;
}

/* what was told since the last call, which the caller frees */
static char *told(void)
{
    size_t size = 0;
    char *text = 0;
    if (topo_log(&t, text, 0, &size) == TOPO_RANGE) {
        text = malloc(size + 1);
        if (!text || topo_log(&t, text, size, &size) != TOPO_DONE)
            exit(2);
    } else {
        text = malloc(1);
    }
    text[size] = 0;
    return text;
}

/* prints what was told */
static void put_told(void)
{
    char *text = told();
    fputs(text, stdout);
    free(text);
}

/* compares the events with the lines */
static void check_events(const char *text, const struct topo_event *events, size_t count, const char *line)
{
    static const char *const words[] = {"", "move ", "split ", "flip ", "collapse ", "zip ", "pinch ", "solid ", "group", "close kept", "close undone"};
    size_t found[11] = {0}, i;
    for (i = 0; i < count; ++i)
        found[events[i].kind] += events[i].kind != TOPO_PINCHED || events[i].a == events[i].b;
    for (i = 1; i < 11; ++i)
        check(found[i] == lines_of(text, words[i]), words[i], line);
}

/* a pass by the program's sizing */
static uint32_t fit(void)
{
    static struct topo_vertex rows[65536];
    size_t count = 0, i;
    if (topo_points(&t, rows, 65536, &count) != TOPO_DONE)
        exit(2);
    for (i = 0; i < count; ++i)
        if (labs((long)rows[i].x) > 15 || labs((long)rows[i].y) > 15 || labs((long)rows[i].z) > 15)
            exit(3);
    return topo_fit(&t, 20, 60, &edits);
}

static uint32_t directive(const char *line)
{
    long a = 0, b = 0, c = 0, d = 0;
    char word[16];
    static const char *const names[] = {"depth", "passes", "zones", "halvings"};
    int i;
    if (sscanf(line, "shift all %ld %ld %ld", &a, &b, &c) == 3)
        return topo_shift_all(&t, (int32_t)a, (int32_t)b, (int32_t)c, &fault);
    if (sscanf(line, "shift %ld %ld %ld %ld", &a, &b, &c, &d) == 4)
        return topo_shift(&t, (uint32_t)a, (int32_t)b, (int32_t)c, (int32_t)d, &fault);
    if (sscanf(line, "set %15s %ld", word, &a) == 2) {
        for (i = 0; i < 4; ++i)
            if (strcmp(word, names[i]) == 0)
                settings[i] = (uint32_t)a;
        return topo_set(&t, settings[0], settings[1], settings[2], settings[3]);
    }
    if (sscanf(line, "solid %ld", &a) == 1)
        return topo_solid(&t, (uint32_t)a, &fault);
    if (sscanf(line, "split %ld", &a) == 1)
        return topo_split(&t, (uint32_t)a, &edits, &fault);
    if (sscanf(line, "collapse %ld", &a) == 1)
        return topo_collapse(&t, (uint32_t)a, &edits, &fault);
    if (sscanf(line, "zip %ld", &a) == 1)
        return topo_zip(&t, (uint32_t)a, &edits, &fault);
    if (strcmp(line, "flip\n") == 0)
        return topo_flip(&t, &edits, &fault);
    if (strcmp(line, "pinch\n") == 0)
        return topo_pinch(&t, &edits, &fault);
    if (strcmp(line, "fit\n") == 0)
        return fit();
    if (strcmp(line, "step\n") == 0)
        return topo_step(&t, &way, &fault);
    if (strcmp(line, "group\n") == 0)
        return topo_open(&t, &fault);
    if (strcmp(line, "close\n") == 0)
        return topo_close(&t, &kept, &fault);
    fprintf(stderr, "not a directive of the library: %s", line);
    exit(2);
}

/* prints what a directive told, after it is compared with what it told as numbers */
static void show(const char *line)
{
    static const char *const words[] = {"moved whole", "moved impulse", "moved zones", "moved halved", "moved zero"};
    static struct topo_event events[1 << 16];
    size_t count = 0;
    const uint32_t code = topo_events(&t, events, sizeof events / sizeof *events, &count);
    char *text = told();
    check(code == TOPO_DONE || code == TOPO_RANGE, "the events are not told", line);
    if (code == TOPO_DONE)
        check_events(text, events, count, line);
    if (strcmp(line, "step\n") == 0) {
        check(way.how <= TOPO_ZERO && lines_of(text, words[way.how]) == 1, "the way is another", line);
        check(way.hits == lines_of(text, "hit "), "the pairs are others", line);
    }
    if (lines_of(text, "pass ") == 1) {
        check(edits.refused == lines_of(text, "no "), "so many are not refused", line);
        check(edits.done == lines_of(text, "split ") + lines_of(text, "flip ") + lines_of(text, "collapse ") + lines_of(text, "zip ") + lines_of(text, "pinch "),
              "so many are not done", line);
    }
    if (strcmp(line, "close\n") == 0)
        check(lines_of(text, kept == TOPO_KEPT ? "close kept" : "close undone") == 1, "the group is another", line);
    fputs(text, stdout);
    free(text);
}

/* the line of a refusal by its fault */
static void show_fault(unsigned line)
{
    static const char *const words[] = {"", "vertex", "range", "box", "field", "solid"};
    const unsigned a = fault.a, b = fault.b, c = fault.c;
    if (fault.why <= 5)
        printf("refused use %u %s %u\n", line, words[fault.why], a);
    else if (fault.why == TOPO_REPEATED)
        printf("refused shape repeated %u\n", a);
    else if (fault.why == TOPO_CORNER || fault.why == TOPO_DOUBLED || fault.why == TOPO_UNBALANCED)
        printf("refused shape %s %u %u\n", fault.why == TOPO_CORNER ? "corner" : fault.why == TOPO_DOUBLED ? "doubled" : "unbalanced", a, b);
    else if (fault.why == TOPO_MEETS)
        printf("refused meets %u %u %u\n", a, b, c);
    else
        printf("refused %u\n", (unsigned)fault.why);
}

int main(int count, char **words)
{
    static struct topo_point points[65536];
    static struct topo_triangle faces[131072];
    static char line[4096];
    size_t v = 0, f = 0;
    unsigned number = 0;
    uint32_t code;
    FILE *mesh = count == 3 ? fopen(words[1], "r") : 0, *steps = count == 3 ? fopen(words[2], "r") : 0;
    if (!mesh || !steps)
        return 2;
    while (fgets(line, sizeof line, mesh)) {
        v += sscanf(line, "v %d %d %d", &points[v].x, &points[v].y, &points[v].z) == 3;
        f += sscanf(line, "f %u %u %u", &faces[f].a, &faces[f].b, &faces[f].c) == 3;
    }
    code = topo_new(points, v, faces, f, &t, &fault);
    if (code != TOPO_DONE)
        puts("topo log 2");
    else if ((code = topo_begin_log(&t)) == TOPO_DONE)
        put_told();
    while (code == TOPO_DONE && fgets(line, sizeof line, steps)) {
        ++number;
        code = directive(line);
        if (code == TOPO_DONE)
            show(line);
    }
    if (code == TOPO_REFUSED)
        show_fault(number);
    else if (code == TOPO_DONE && (code = topo_end_log(&t)) == TOPO_DONE)
        put_told();
    else
        fprintf(stderr, "code %u at line %u\n", (unsigned)code, number);
    topo_free(&t);
    return code == TOPO_DONE || code == TOPO_REFUSED ? wrong : 2;
}
