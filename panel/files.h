/* Files that the panel reads and writes. What fails is said with the system's own words. */
#ifndef FILES_H
#define FILES_H

#include <stddef.h>
#include <stdint.h>

/* Writes a file whole or not at all: a new one beside it is written, read back and only then given its name. Whether that worked. */
int write_file(const char *name, const void *bytes, size_t length);

enum { NOT_READ = -1 };

/* Reads a file from its beginning, at most so many bytes; how many they are, or NOT_READ. */
long read_file(const char *name, void *bytes, size_t most);

#endif
