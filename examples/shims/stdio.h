// What check.c needs of the C library's header, for x86-64 on any machine.
#ifndef EXAMPLES_STDIO_H
#define EXAMPLES_STDIO_H
int printf(const char *format, ...);
#endif
