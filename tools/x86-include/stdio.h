/* What C code of this project takes from stdio.h, for the kit's clang, which has no headers. */
#ifndef X86_STDIO_H
#define X86_STDIO_H
#include <stddef.h>
int printf(const char *format, ...);
int sscanf(const char *text, const char *format, ...);
int putchar(int byte);
int getchar(void);
#define EOF (-1)
#endif
