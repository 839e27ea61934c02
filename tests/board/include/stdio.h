/* As much of it as the tests use: %s, %u, %x and %%, without width or flags. */
#ifndef STDIO_H
#define STDIO_H

int printf(const char *format, ...);

#endif
