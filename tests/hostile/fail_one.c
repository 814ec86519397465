/* Loaded ahead of the C library. The environment says which call fails, counted from 1: REFUSE of the allocations,
 * FAIL_READ of the reads of standard input, FAIL_WRITE of the writes to standard output. PIECE is the most bytes that one
 * such read or write moves.
 */
#define _GNU_SOURCE
#include <dlfcn.h>
#include <errno.h>
#include <stdatomic.h>
#include <stdlib.h>
#include <unistd.h>

static void *(*library_malloc)(size_t);
static ssize_t (*library_read)(int, void *, size_t);
static ssize_t (*library_write)(int, const void *, size_t);
static atomic_long allocations, reads, writes;
static long refused, failing_read, failing_write, piece;

static long number_of(const char *name)
{
    const char *text = getenv(name);
    return text ? atol(text) : 0;
}

__attribute__((constructor)) static void begin(void)
{
    library_malloc = dlsym(RTLD_NEXT, "malloc");
    library_read = dlsym(RTLD_NEXT, "read");
    library_write = dlsym(RTLD_NEXT, "write");
    failing_read = number_of("FAIL_READ");
    failing_write = number_of("FAIL_WRITE");
    piece = number_of("PIECE");
    refused = number_of("REFUSE");
}

void *malloc(size_t size)
{
    if (!library_malloc)
        library_malloc = dlsym(RTLD_NEXT, "malloc");
    if (refused && atomic_fetch_add(&allocations, 1) + 1 == refused)
        return NULL;
    return library_malloc(size);
}

static size_t cut(size_t size)
{
    return piece && size > (size_t)piece ? (size_t)piece : size;
}

ssize_t read(int file, void *bytes, size_t size)
{
    if (file != STDIN_FILENO)
        return library_read(file, bytes, size);
    if (failing_read && atomic_fetch_add(&reads, 1) + 1 == failing_read) {
        errno = EIO;
        return -1;
    }
    return library_read(file, bytes, cut(size));
}

ssize_t write(int file, const void *bytes, size_t size)
{
    if (file != STDOUT_FILENO)
        return library_write(file, bytes, size);
    if (failing_write && atomic_fetch_add(&writes, 1) + 1 == failing_write) {
        errno = EIO;
        return -1;
    }
    return library_write(file, bytes, cut(size));
}
