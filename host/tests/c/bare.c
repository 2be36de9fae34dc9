/* A program without a C library: what the archive and the pair need stands below, and nothing else is linked. It prints
 * one line by two calls of Linux on aarch64, so that it can be run; see `targets`. */
#include "pralakuon_record.h"

/* The compiler must not make calls of these functions out of their own loops. */
#define PLAIN_LOOP __attribute__((optimize("no-tree-loop-distribute-patterns")))

PLAIN_LOOP void *memcpy(void *to, const void *from, size_t length)
{
    for (size_t i = 0; i < length; i++)
        ((uint8_t *)to)[i] = ((const uint8_t *)from)[i];
    return to;
}

PLAIN_LOOP void *memset(void *to, int byte, size_t length)
{
    for (size_t i = 0; i < length; i++)
        ((uint8_t *)to)[i] = (uint8_t)byte;
    return to;
}

PLAIN_LOOP void *memmove(void *to, const void *from, size_t length)
{
    if ((uintptr_t)to < (uintptr_t)from)
        return memcpy(to, from, length);
    while (length-- > 0)
        ((uint8_t *)to)[length] = ((const uint8_t *)from)[length];
    return to;
}

PLAIN_LOOP size_t strlen(const char *text)
{
    size_t length = 0;

    while (text[length])
        length++;
    return length;
}

enum { WRITE = 64, EXIT = 93 };

static long linux_call(long number, long a, const void *b, size_t c)
{
    register long x8 __asm__("x8") = number;
    register long x0 __asm__("x0") = a;
    register const void *x1 __asm__("x1") = b;
    register size_t x2 __asm__("x2") = c;

    __asm__ volatile("svc 0" : "+r"(x0) : "r"(x1), "r"(x2), "r"(x8) : "memory");
    return x0;
}

/* All of it through the pair and a session, so that every function above is needed. */
static uint64_t lines(uint8_t *out, size_t room)
{
    static uint8_t memory[256];
    struct pralakuon_sheet sheet;
    struct pralakuon_record record = {.level = PRALAKUON_LEVEL_ERROR, .message = pralakuon_text_of("no library")};

    if (pralakuon_sheet_begin(&sheet, PRALAKUON_PLAIN, pralakuon_text_of("[{L}] {s}"), memory, sizeof memory))
        return PRALAKUON_NOT_A_SHEET;
    if (pralakuon_sheet_push(&sheet, &record))
        return PRALAKUON_NOT_A_SHEET;
    return pralakuon_session(sheet.bytes, sheet.size, out, room);
}

void _start(void)
{
    static uint8_t out[80];
    uint64_t answer = lines(out, sizeof out);

    linux_call(WRITE, 1, out, (size_t)pralakuon_length_of(answer));
    linux_call(EXIT, (long)pralakuon_refusal_of(answer), 0, 0);
    for (;;)
        ;
}
