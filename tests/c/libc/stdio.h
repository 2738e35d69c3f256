/* What the tests use of C's own <stdio.h>, for a compiler that has no C library's headers beside it: the kit has none. */
#ifndef TESTS_STDIO_H
#define TESTS_STDIO_H
#include <stddef.h>
#ifdef __cplusplus
extern "C" {
#endif
typedef struct _IO_FILE FILE;
FILE *fopen(const char *name, const char *mode);
size_t fread(void *to, size_t size, size_t count, FILE *file);
int fclose(FILE *file);
int printf(const char *form, ...);
void perror(const char *name);
#ifdef __cplusplus
}
#endif
#endif
