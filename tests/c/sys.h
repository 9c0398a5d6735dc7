/* What the test uses of the C library. */
#ifndef SYS_H
#define SYS_H

#include <stddef.h>

enum { STANDARD_OUTPUT = 1, READ_ONLY = 0 };

long read(int file, void *buffer, size_t size);
long write(int file, const void *buffer, size_t size);
int open(const char *name, int flags, ...);
int close(int file);
void *memcpy(void *to, const void *from, size_t size);
void *memmove(void *to, const void *from, size_t size);
int memcmp(const void *one, const void *other, size_t size);

#endif
