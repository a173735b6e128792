/* The memory functions that the library's code asks for, in their smallest form: what a device without a C library has to
 * bring. With them the calls are linked by themselves, and nothing else is missing. */
#include <stddef.h>

void *memcpy(void *restrict to, const void *restrict from, size_t length);
void *memmove(void *to, const void *from, size_t length);
void *memset(void *to, int byte, size_t length);
int memcmp(const void *x, const void *y, size_t length);
int bcmp(const void *x, const void *y, size_t length);

void *memcpy(void *restrict to, const void *restrict from, size_t length)
{
    unsigned char *out = to;
    const unsigned char *in = from;

    while (length-- > 0)
        *out++ = *in++;
    return to;
}

void *memmove(void *to, const void *from, size_t length)
{
    unsigned char *out = to;
    const unsigned char *in = from;

    if (out < in)
        for (size_t i = 0; i < length; i++)
            out[i] = in[i];
    else
        while (length-- > 0)
            out[length] = in[length];
    return to;
}

void *memset(void *to, int byte, size_t length)
{
    unsigned char *out = to;

    while (length-- > 0)
        *out++ = (unsigned char)byte;
    return to;
}

int memcmp(const void *x, const void *y, size_t length)
{
    const unsigned char *one = x, *other = y;

    for (; length > 0 && *one == *other; length--, one++, other++)
        ;
    return length > 0 ? *one - *other : 0;
}

int bcmp(const void *x, const void *y, size_t length) { return memcmp(x, y, length); }
