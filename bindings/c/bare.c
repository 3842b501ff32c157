/* A program without a C library: what firmware has. The library needs of its surroundings only the
 * division of 128 bits that the compiler's own run-time library has (libgcc or compiler-rt), and
 * the four calls that every compiler may make by itself in a free-standing program. This is for
 * Linux on x86-64, where it can run; its status is 0 where a device starts, ticks and reports. */
#include <stddef.h>

#include "sundial_device.h"

void *memset(void *to, int byte, size_t bytes);
void *memcpy(void *restrict to, const void *restrict from, size_t bytes);
void *memmove(void *to, const void *from, size_t bytes);
int memcmp(const void *one, const void *other, size_t bytes);
_Noreturn void begin(void);

void *memset(void *to, int byte, size_t bytes)
{
    volatile unsigned char *at = to;
    while (bytes-- > 0)
        *at++ = (unsigned char)byte;
    return to;
}

void *memmove(void *to, const void *from, size_t bytes)
{
    volatile unsigned char *at = to;
    const volatile unsigned char *source = from;
    if ((uintptr_t)at <= (uintptr_t)source)
        for (size_t i = 0; i < bytes; i++)
            at[i] = source[i];
    else
        while (bytes-- > 0)
            at[bytes] = source[bytes];
    return to;
}

void *memcpy(void *restrict to, const void *restrict from, size_t bytes)
{
    return memmove(to, from, bytes);
}

int memcmp(const void *one, const void *other, size_t bytes)
{
    const volatile unsigned char *first = one, *second = other;
    for (size_t i = 0; i < bytes; i++)
        if (first[i] != second[i])
            return first[i] < second[i] ? -1 : 1;
    return 0;
}

static int run(void)
{
    static struct sundial_device device;
    static const struct sundial_duty duty = {{0, 0, 0, 0}, {0, 0, 0, 0}, 100, 300, 200, 900, {1000, 200}, 1,
                                             SUNDIAL_ROOT, 0, 0};
    struct sundial_effect effect = {{{0, 0}, {0, 0}, {0, 0}, 0}, 0};
    struct sundial_interval now = {{0, 0}, {0, 0}};
    if (sundial_start(&device, &duty, 0, 5000, 10) != SUNDIAL_DONE)
        return 1;
    if (sundial_tick(&device, 100, &effect) != SUNDIAL_DONE || effect.sends == 0)
        return 2;
    if (sundial_now(&device, 200, &now) != SUNDIAL_DONE || now.latest.low < 5200)
        return 3;
    return 0;
}

_Noreturn void begin(void)
{
    long status = run();
    for (;;)
        __asm__ volatile("syscall" : : "a"(60L), "D"(status) : "rcx", "r11", "memory");
}
