/*
 * What the library, and the compiler by itself, ask of a C library: here without one. On Arm the
 * names are those of its run-time ABI, where a set takes the length before the octet; the names
 * that end with 4 or 8 are for places of that alignment, and any place may be given to the others.
 */
#include <stddef.h>

void *memcpy(void *to, const void *from, size_t n);
void *memmove(void *to, const void *from, size_t n);
void *memset(void *to, int octet, size_t n);
void __aeabi_memset(void *to, size_t n, int octet);
void __aeabi_memclr(void *to, size_t n);

void *memcpy(void *to, const void *from, size_t n)
{
    unsigned char *octet = to;
    const unsigned char *other = from;
    while (n-- > 0)
        *octet++ = *other++;
    return to;
}

void *memmove(void *to, const void *from, size_t n)
{
    unsigned char *octet = to;
    const unsigned char *other = from;
    if (octet <= other)
        return memcpy(to, from, n);
    while (n-- > 0)
        octet[n] = other[n];
    return to;
}

void *memset(void *to, int octet, size_t n)
{
    unsigned char *each = to;
    while (n-- > 0)
        *each++ = (unsigned char)octet;
    return to;
}

void __aeabi_memset(void *to, size_t n, int octet)
{
    memset(to, octet, n);
}

void __aeabi_memclr(void *to, size_t n)
{
    memset(to, 0, n);
}

#define ALSO(answer, name, same, parameters) answer name parameters __attribute__((alias(#same)));
ALSO(void *, __aeabi_memcpy, memcpy, (void *, const void *, size_t))
ALSO(void *, __aeabi_memcpy4, memcpy, (void *, const void *, size_t))
ALSO(void *, __aeabi_memcpy8, memcpy, (void *, const void *, size_t))
ALSO(void *, __aeabi_memmove, memmove, (void *, const void *, size_t))
ALSO(void *, __aeabi_memmove4, memmove, (void *, const void *, size_t))
ALSO(void *, __aeabi_memmove8, memmove, (void *, const void *, size_t))
ALSO(void, __aeabi_memset4, __aeabi_memset, (void *, size_t, int))
ALSO(void, __aeabi_memset8, __aeabi_memset, (void *, size_t, int))
ALSO(void, __aeabi_memclr4, __aeabi_memclr, (void *, size_t))
ALSO(void, __aeabi_memclr8, __aeabi_memclr, (void *, size_t))
