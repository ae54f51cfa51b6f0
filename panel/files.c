/* Files that the panel reads and writes. */
#define _XOPEN_SOURCE 700
#include "files.h"

#include <errno.h>
#include <fcntl.h>
#include <libgen.h>
#include <stdio.h>
#include <stdlib.h>
#include <string.h>
#include <sys/stat.h>
#include <unistd.h>

#include "outcome.h"

static void say_failed(const char *name, const char *what)
{
    printf("%s could not be %s: %s\n", name, what, strerror(errno));
    note(FILE_FAILED);
}

/* Where new bytes go: a path that is no link, and the mode of the file there. */
struct place {
    char *path;
    mode_t mode;
};

static mode_t mode_of_new_files(void)
{
    mode_t mask = umask(0);
    umask(mask);
    return 0666 & ~mask;
}

/* A link that leads nowhere is left alone: a rename would put a file in its place. */
static int find_new_place(const char *name, struct place *place)
{
    struct stat link;
    if (errno != ENOENT || lstat(name, &link) == 0)
        return 0;
    place->path = strdup(name);
    place->mode = mode_of_new_files();
    return place->path != NULL;
}

/* A file that may not be written is left alone too, though a rename would not ask. Whether there is a place; else `errno` says why not. */
static int find_place(const char *name, struct place *place)
{
    struct stat status;
    place->path = realpath(name, NULL);
    if (place->path == NULL)
        return find_new_place(name, place);
    if (stat(place->path, &status) != 0 || access(place->path, W_OK) != 0)
        return 0;
    place->mode = status.st_mode & 07777;
    return 1;
}

/* Every byte that goes into a file goes through here. */
static int write_all(int file, const uint8_t *bytes, size_t length)
{
    while (length > 0) {
        ssize_t written = write(file, bytes, length);
        if (written <= 0)
            return 0;
        bytes += written;
        length -= (size_t)written;
    }
    return 1;
}

static int reads_back(int file, const uint8_t *bytes, size_t length)
{
    uint8_t part[4096];
    size_t at = 0;
    ssize_t count;
    while ((count = pread(file, part, sizeof part, (off_t)at)) > 0 && (size_t)count <= length - at &&
           memcmp(part, bytes + at, (size_t)count) == 0)
        at += (size_t)count;
    if (count == 0 && at == length)
        return 1;
    if (count >= 0)
        errno = EIO;
    return 0;
}

static int is_filled(int file, const uint8_t *bytes, size_t length, mode_t mode)
{
    errno = EIO; /* what a write of nothing means, which sets none */
    return write_all(file, bytes, length) && fsync(file) == 0 && reads_back(file, bytes, length) && fchmod(file, mode) == 0;
}

/* So that the new name too outlasts a power cut. That a file system cannot do it is no fault of the file. */
static void sync_folder_of(const char *path)
{
    char *name = strdup(path);
    int folder = name != NULL ? open(dirname(name), O_RDONLY | O_DIRECTORY) : -1;
    if (folder >= 0) {
        fsync(folder);
        close(folder);
    }
    free(name);
}

/* Fills the new file, closes it and gives it its name. */
static int put_in_place(int file, const char *beside, const struct place *place, const uint8_t *bytes, size_t length)
{
    if (!is_filled(file, bytes, length, place->mode)) {
        int error = errno;
        close(file);
        errno = error;
        return 0;
    }
    if (close(file) != 0 || rename(beside, place->path) != 0)
        return 0;
    sync_folder_of(place->path);
    return 1;
}

/* Whatever fails, nothing is left beside. */
static int write_beside(char *beside, const struct place *place, const uint8_t *bytes, size_t length)
{
    int file = mkstemp(beside);
    if (file < 0)
        return 0;
    if (put_in_place(file, beside, place, bytes, length))
        return 1;
    int error = errno;
    unlink(beside);
    errno = error;
    return 0;
}

static int replace(const struct place *place, const uint8_t *bytes, size_t length)
{
    static const char ending[] = ".XXXXXX";
    char *beside = malloc(strlen(place->path) + sizeof ending);
    if (beside == NULL)
        return 0;
    strcat(strcpy(beside, place->path), ending);
    int is_replaced = write_beside(beside, place, bytes, length);
    free(beside);
    return is_replaced;
}

static int is_other_than_file(const char *name)
{
    struct stat status;
    return stat(name, &status) == 0 && !S_ISREG(status.st_mode);
}

int write_file(const char *name, const void *bytes, size_t length)
{
    if (is_other_than_file(name)) {
        printf("%s is no regular file\n", name);
        note(FILE_FAILED);
        return 0;
    }
    struct place place;
    int is_written = find_place(name, &place) && replace(&place, bytes, length);
    if (!is_written)
        say_failed(name, "written");
    free(place.path);
    return is_written;
}

/* How many bytes there were, or NOT_READ. */
static long read_up_to(int file, uint8_t *bytes, size_t most)
{
    size_t length = 0;
    ssize_t count = 1;
    while (length < most && count > 0) {
        count = read(file, bytes + length, most - length);
        length += count > 0 ? (size_t)count : 0;
    }
    return count < 0 ? NOT_READ : (long)length;
}

/* A pipe that nobody writes to would be waited for: it is opened without waiting, and then read like any file. */
static int open_to_read(const char *name)
{
    int file = open(name, O_RDONLY | O_NONBLOCK);
    if (file >= 0)
        fcntl(file, F_SETFL, 0);
    return file;
}

long read_file(const char *name, void *bytes, size_t most)
{
    int file = open_to_read(name);
    long length = file < 0 ? NOT_READ : read_up_to(file, bytes, most);
    if (length == NOT_READ)
        say_failed(name, "read");
    if (file >= 0)
        close(file);
    return length;
}
