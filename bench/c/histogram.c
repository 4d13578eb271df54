/* Each thread walks its strip of a picture, and adds to common bins. */
#include "kernel.h"

enum { BINS = 256 };

static uint32_t memory_words(void)
{
    return BINS + words;
}

static void fill(void)
{
    for (uint32_t place = BINS; place < memory_words(); place++)
        memory[place] = any_word(place);
}

static void work(uint32_t me)
{
    uint32_t strip = words / threads;
    for (uint32_t round = 0; round < rounds; round++)
        for (uint32_t i = me * strip; i < (me + 1) * strip; i++)
            __atomic_fetch_add(&memory[memory[BINS + i] % BINS], 1, __ATOMIC_RELAXED);
}
