/*
 * A C library as small as the tests need it. The loops go by words where they can: on an emulated
 * board most of the time passes in them.
 */
#include <stdarg.h>
#include <stdint.h>
#include <stdio.h>
#include <string.h>

#if defined __wasm__
/* Text that ends with 0; run.js has it. */
__attribute__((import_module("machine"), import_name("say"))) void say(const char *text);
#else
#include "../../examples/board/semihosting.h"
#endif

typedef uint32_t __attribute__((may_alias)) word;

static int are_words(const void *a, const void *b)
{
    return (((uintptr_t)a | (uintptr_t)b) & (sizeof(word) - 1)) == 0;
}

/* Whether both are at the same place of a word. */
static int are_alike(const void *a, const void *b)
{
    return (((uintptr_t)a ^ (uintptr_t)b) & (sizeof(word) - 1)) == 0;
}

void *memcpy(void *to, const void *from, size_t n)
{
    uint8_t *t = to;
    const uint8_t *f = from;
    for (; n > 0 && are_alike(t, f) && !are_words(t, f); n--)
        *t++ = *f++;
    if (are_words(t, f)) {
        word *words = (word *)(void *)t;
        const word *others = (const word *)(const void *)f;
        size_t whole = n / sizeof(word);
        for (size_t i = 0; i < whole; i++)
            words[i] = others[i];
        t += whole * sizeof(word), f += whole * sizeof(word);
        n %= sizeof(word);
    }
    while (n-- > 0)
        *t++ = *f++;
    return to;
}

void *memmove(void *to, const void *from, size_t n)
{
    uint8_t *t = to;
    const uint8_t *f = from;
    if ((uintptr_t)t - (uintptr_t)f >= n)
        return memcpy(to, from, n);
    while (n-- > 0)
        t[n] = f[n];
    return to;
}

void *memset(void *to, int octet, size_t n)
{
    uint8_t *t = to;
    uint8_t value = (uint8_t)octet;
    word four = value * (word)0x01010101u;
    for (; n > 0 && !are_words(t, t); n--)
        *t++ = value;
    for (; n >= sizeof(word); n -= sizeof(word), t += sizeof(word))
        *(word *)(void *)t = four;
    while (n-- > 0)
        *t++ = value;
    return to;
}

/* How many words are the same; four at a time, since stores of a megabyte are compared. */
static size_t same_words(const word *a, const word *b, size_t n)
{
    size_t i = 0;
    while (i + 4 <= n && ((a[i] ^ b[i]) | (a[i + 1] ^ b[i + 1]) | (a[i + 2] ^ b[i + 2]) |
                          (a[i + 3] ^ b[i + 3])) == 0)
        i += 4;
    return i;
}

int memcmp(const void *a, const void *b, size_t n)
{
    const uint8_t *x = a, *y = b;
    for (; n > 0 && are_alike(x, y) && !are_words(x, y) && *x == *y; n--)
        x++, y++;
    if (are_words(x, y)) {
        size_t same = sizeof(word) * same_words((const word *)(const void *)x,
                                                (const word *)(const void *)y, n / sizeof(word));
        x += same, y += same;
        n -= same;
    }
    for (; n > 0; n--, x++, y++)
        if (*x != *y)
            return *x - *y;
    return 0;
}

int strcmp(const char *a, const char *b)
{
    for (; *a != 0 && *a == *b; a++)
        b++;
    return (unsigned char)*a - (unsigned char)*b;
}

size_t strlen(const char *text)
{
    size_t n = 0;
    while (text[n] != 0)
        n++;
    return n;
}

#if defined __arm__
/* The names that Arm's run-time ABI gives them; a filling has its octet last there. */
#define KIN(name, parameters, call) \
    void name parameters;           \
    void name parameters { call; }
KIN(__aeabi_memcpy, (void *to, const void *from, size_t n), memcpy(to, from, n))
KIN(__aeabi_memcpy4, (void *to, const void *from, size_t n), memcpy(to, from, n))
KIN(__aeabi_memcpy8, (void *to, const void *from, size_t n), memcpy(to, from, n))
KIN(__aeabi_memmove, (void *to, const void *from, size_t n), memmove(to, from, n))
KIN(__aeabi_memmove4, (void *to, const void *from, size_t n), memmove(to, from, n))
KIN(__aeabi_memmove8, (void *to, const void *from, size_t n), memmove(to, from, n))
KIN(__aeabi_memset, (void *to, size_t n, int octet), memset(to, octet, n))
KIN(__aeabi_memset4, (void *to, size_t n, int octet), memset(to, octet, n))
KIN(__aeabi_memset8, (void *to, size_t n, int octet), memset(to, octet, n))
KIN(__aeabi_memclr, (void *to, size_t n), memset(to, 0, n))
KIN(__aeabi_memclr4, (void *to, size_t n), memset(to, 0, n))
KIN(__aeabi_memclr8, (void *to, size_t n), memset(to, 0, n))
#endif

/* What is printed goes out line by line. */
static char line[160];
static size_t used;

static void put(char letter)
{
    line[used++] = letter;
    if (letter == '\n' || used == sizeof line - 1) {
        line[used] = 0;
        say(line);
        used = 0;
    }
}

static void put_text(const char *text)
{
    while (*text != 0)
        put(*text++);
}

static void put_number(unsigned number, unsigned base)
{
    char digits[12];
    size_t at = sizeof digits - 1;
    digits[at] = 0;
    do {
        digits[--at] = "0123456789abcdef"[number % base];
        number /= base;
    } while (number > 0);
    put_text(digits + at);
}

int printf(const char *format, ...)
{
    va_list given;
    va_start(given, format);
    for (; *format != 0; format++) {
        if (*format != '%') {
            put(*format);
            continue;
        }
        switch (*++format) {
        case 's':
            put_text(va_arg(given, const char *));
            break;
        case 'u':
            put_number(va_arg(given, unsigned), 10);
            break;
        case 'x':
            put_number(va_arg(given, unsigned), 16);
            break;
        default:
            put(*format);
        }
    }
    va_end(given);
    return 0;
}
