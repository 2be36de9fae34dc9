/* What the test programs share. They are C99 and C++11 alike. */
#ifndef CHECK_H
#define CHECK_H

#include <limits.h>
#include <stdio.h>
#include <stdlib.h>
#include <string.h>

/* What lent memory holds before a call. */
enum { PAINT = 0xa5 };

#define CHECK(fact) ((fact) ? (void)0 : failed(__FILE__, __LINE__, #fact))

static inline void failed(const char *file, int line, const char *fact)
{
    fprintf(stderr, "%s:%d: not so: %s\n", file, line, fact);
    exit(1);
}

/* Memory of exactly this size, so that a sanitizer sees a step outside of it. */
static inline uint8_t *painted(size_t size, int paint)
{
    uint8_t *memory = (uint8_t *)malloc(size ? size : 1);

    CHECK(memory != NULL);
    memset(memory, paint, size);
    return memory;
}

static inline int all_are(const uint8_t *memory, size_t size, int byte)
{
    size_t i;

    for (i = 0; i < size; i++)
        if (memory[i] != byte)
            return 0;
    return 1;
}

#endif
