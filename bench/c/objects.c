/* Each thread walks its strip of a picture of numbered objects, and marks those that it sees. In the faulty picture one
 * object lies across two strips, so that two threads write its mark. */
#include "kernel.h"

enum { OBJECT = 8 };

static uint32_t memory_words(void)
{
    return threads + 1 + words;
}

static void fill(void)
{
    uint32_t strip = words / threads;
    for (uint32_t number = 1; number <= threads; number++) {
        uint32_t begin = (number - 1) * strip + strip / 2;
        if (faulty && number == 2)
            begin = 2 * strip - OBJECT / 2;
        for (uint32_t i = begin; i < begin + OBJECT; i++)
            memory[threads + 1 + i] = number;
    }
}

static void work(uint32_t me)
{
    uint32_t strip = words / threads;
    for (uint32_t i = me * strip; i < (me + 1) * strip; i++) {
        uint32_t object = memory[threads + 1 + i];
        if (object != 0)
            memory[object] = 1;
    }
}
