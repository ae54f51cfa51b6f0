/* Stands in for write(2) in a panel that is built with --wrap=write. Standard output and error are written; a file finds the disk full, or,
   with KEEPS_OTHER_BYTES, one that says nothing and keeps other bytes. */
#include <errno.h>
#include <unistd.h>

ssize_t __real_write(int file, const void *bytes, size_t length);
ssize_t __wrap_write(int file, const void *bytes, size_t length);

static ssize_t write_badly(int file, const unsigned char *bytes, size_t length)
{
#ifdef KEEPS_OTHER_BYTES
    unsigned char other = (unsigned char)~bytes[0];
    return length > 0 ? __real_write(file, &other, 1) : 0;
#else
    (void)file, (void)bytes, (void)length;
    errno = ENOSPC;
    return -1;
#endif
}

ssize_t __wrap_write(int file, const void *bytes, size_t length)
{
    return file <= STDERR_FILENO ? __real_write(file, bytes, length) : write_badly(file, bytes, length);
}
