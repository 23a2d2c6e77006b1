// A library to preload into a program. It counts the program's requests for memory, and can refuse one of
// them, or one and all later ones, or those for many bytes. It passes the others on to the GNU C library.
//
//   REFUSE_MEMORY_AT=N       refuses only the N-th request, counted from 1
//   REFUSE_MEMORY_FROM=N     refuses the N-th request and all later ones
//   REFUSE_MEMORY_ABOVE=N    refuses each request for more than N bytes
//   REFUSE_MEMORY_TELL=FILE  writes 'COUNT LARGEST TOTAL PEAK' and LF to FILE when the program ends: the
//                            number of requests, the size of the largest, the sum of their sizes, and the
//                            greatest number of bytes held at a time
//
// Requests of the dynamic loader, before the library is set up, are granted and not counted.

#include <errno.h>
#include <fcntl.h>
#include <malloc.h>
#include <stddef.h>
#include <stdio.h>
#include <stdlib.h>
#include <unistd.h>

extern void *__libc_malloc(size_t);
extern void *__libc_calloc(size_t, size_t);
extern void *__libc_realloc(void *, size_t);
extern void *__libc_memalign(size_t, size_t);
extern void __libc_free(void *);

static int ready;
static unsigned long count;
static unsigned long largest;
static unsigned long total;
static unsigned long held;
static unsigned long peak;
static unsigned long refuse_at;
static unsigned long refuse_from;
static unsigned long refuse_above;

// Counts a request for this number of bytes, and returns whether it is refused.
static int refused(size_t bytes)
{
    if (!ready)
        return 0;
    count++;
    total += bytes;
    if (bytes > largest)
        largest = bytes;
    return count == refuse_at || (refuse_from != 0 && count >= refuse_from) ||
           (refuse_above != 0 && bytes > refuse_above);
}

static void *refusal(void)
{
    errno = ENOMEM;
    return NULL;
}

// Counts memory that was granted.
static void *granted(void *memory)
{
    held += malloc_usable_size(memory);
    if (held > peak)
        peak = held;
    return memory;
}

void *malloc(size_t bytes)
{
    return refused(bytes) ? refusal() : granted(__libc_malloc(bytes));
}

void free(void *memory)
{
    held -= malloc_usable_size(memory);
    __libc_free(memory);
}

void *calloc(size_t items, size_t size)
{
    size_t bytes;
    if (__builtin_mul_overflow(items, size, &bytes))
        return refusal();
    return refused(bytes) ? refusal() : granted(__libc_calloc(items, size));
}

void *realloc(void *old, size_t bytes)
{
    if (refused(bytes))
        return refusal();
    size_t before = malloc_usable_size(old);
    void *memory = __libc_realloc(old, bytes);
    if (memory != NULL || bytes == 0)
        held -= before;
    return granted(memory);
}

void *reallocarray(void *old, size_t items, size_t size)
{
    size_t bytes;
    if (__builtin_mul_overflow(items, size, &bytes))
        return refusal();
    return realloc(old, bytes);
}

void *memalign(size_t alignment, size_t bytes)
{
    return refused(bytes) ? refusal() : granted(__libc_memalign(alignment, bytes));
}

void *aligned_alloc(size_t alignment, size_t bytes)
{
    return memalign(alignment, bytes);
}

int posix_memalign(void **made, size_t alignment, size_t bytes)
{
    if (alignment % sizeof(void *) != 0 || alignment == 0 || (alignment & (alignment - 1)) != 0)
        return EINVAL;
    int before = errno;
    void *memory = memalign(alignment, bytes);
    errno = before;
    if (memory == NULL)
        return ENOMEM;
    *made = memory;
    return 0;
}

static unsigned long setting(const char *name)
{
    const char *value = getenv(name);
    return value == NULL ? 0 : strtoul(value, NULL, 10);
}

__attribute__((constructor)) static void set_up(void)
{
    refuse_at = setting("REFUSE_MEMORY_AT");
    refuse_from = setting("REFUSE_MEMORY_FROM");
    refuse_above = setting("REFUSE_MEMORY_ABOVE");
    ready = 1;
}

__attribute__((destructor)) static void tell(void)
{
    ready = 0;
    const char *name = getenv("REFUSE_MEMORY_TELL");
    if (name == NULL)
        return;
    char line[100];
    int length = snprintf(line, sizeof line, "%lu %lu %lu %lu\n", count, largest, total, peak);
    int file = open(name, O_WRONLY | O_CREAT | O_TRUNC, 0600);
    if (file < 0)
        return;
    if (write(file, line, (size_t)length) != length)
        unlink(name);
    close(file);
}
