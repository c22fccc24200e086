/* Stands before the C library's allocator: the allocation numbered FAIL_AT, from 1, finds no memory. How many there were is written to the
   file COUNT_TO, if it is named. */
#include <errno.h>
#include <fcntl.h>
#include <stdio.h>
#include <stdlib.h>
#include <unistd.h>

/* the C library's own (glibc) */
void *__libc_malloc(size_t size);
void *__libc_calloc(size_t n, size_t size);
void *__libc_realloc(void *old, size_t size);
void *__libc_memalign(size_t align, size_t size);

static unsigned long count, fail_at;
static int is_ready;

__attribute__((constructor)) static void begin(void)
{
    const char *text = getenv("FAIL_AT");
    fail_at = text ? strtoul(text, 0, 10) : 0;
    is_ready = 1;
}

__attribute__((destructor)) static void end(void)
{
    const char *name = getenv("COUNT_TO");
    char text[32];
    int length = snprintf(text, sizeof text, "%lu\n", count);
    int file = name ? open(name, O_WRONLY | O_CREAT | O_TRUNC, 0644) : -1;
    if (file >= 0) {
        if (write(file, text, length) != length)
            _exit(99);
        close(file);
    }
}

static int fails(void)
{
    if (!is_ready || ++count != fail_at)
        return 0;
    errno = ENOMEM;
    return 1;
}

void *malloc(size_t size)
{
    return fails() ? 0 : __libc_malloc(size);
}

void *calloc(size_t n, size_t size)
{
    return fails() ? 0 : __libc_calloc(n, size);
}

void *realloc(void *old, size_t size)
{
    return fails() ? 0 : __libc_realloc(old, size);
}

void *memalign(size_t align, size_t size)
{
    return fails() ? 0 : __libc_memalign(align, size);
}

void *aligned_alloc(size_t align, size_t size)
{
    return memalign(align, size);
}

int posix_memalign(void **to, size_t align, size_t size)
{
    *to = memalign(align, size);
    return *to ? 0 : ENOMEM;
}
