/* What the files here use of C's stdio.h, on x86-64 Linux. */
#ifndef STDIO_H
#define STDIO_H
#include <stddef.h>
typedef struct file FILE;
extern FILE *stdout, *stderr;
FILE *fopen(const char *, const char *);
int fclose(FILE *);
size_t fread(void *, size_t, size_t, FILE *);
int fflush(FILE *);
int printf(const char *, ...);
int snprintf(char *, size_t, const char *, ...);
int fprintf(FILE *, const char *, ...);
#endif
