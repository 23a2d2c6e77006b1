// A library to preload into a program. It limits the size of reads from standard input and of writes to
// standard output, and can fail one read or one write. The next call continues where the last one ended,
// so a program that tries again loses nothing.
//
//   FAIL_IO_READ_MOST=N      a read returns at most N bytes
//   FAIL_IO_WRITE_MOST=N     a write takes at most N bytes
//   FAIL_IO_READ_AT=N        the N-th read, counted from 1, is interrupted
//   FAIL_IO_WRITE_AT=N       the N-th write is interrupted

#include <errno.h>
#include <stddef.h>
#include <stdlib.h>
#include <sys/syscall.h>
#include <unistd.h>

static unsigned long reads;
static unsigned long writes;

static unsigned long setting(const char *name)
{
    const char *value = getenv(name);
    return value == NULL ? 0 : strtoul(value, NULL, 10);
}

// The number of these bytes that a call may move, by the setting with this name.
static size_t at_most(const char *name, size_t bytes)
{
    unsigned long most = setting(name);
    return most != 0 && most < bytes ? most : bytes;
}

static ssize_t interruption(void)
{
    errno = EINTR;
    return -1;
}

ssize_t read(int file, void *bytes, size_t count)
{
    if (file != STDIN_FILENO)
        return syscall(SYS_read, file, bytes, count);
    if (++reads == setting("FAIL_IO_READ_AT"))
        return interruption();
    return syscall(SYS_read, file, bytes, at_most("FAIL_IO_READ_MOST", count));
}

ssize_t write(int file, const void *bytes, size_t count)
{
    if (file != STDOUT_FILENO)
        return syscall(SYS_write, file, bytes, count);
    if (++writes == setting("FAIL_IO_WRITE_AT"))
        return interruption();
    return syscall(SYS_write, file, bytes, at_most("FAIL_IO_WRITE_MOST", count));
}
