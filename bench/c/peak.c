/* Each thread adds its strip of a picture to common bins; behind a wait the first reads them, and writes the greatest.
 * The faulty one lacks the wait, so that bins are read while others add. */
#include "kernel.h"

enum { BINS = 64 };

static uint32_t memory_words(void)
{
    return BINS + words + 1;
}

static void fill(void)
{
    for (uint32_t place = BINS; place < BINS + words; place++)
        memory[place] = any_word(place);
}

static void work(uint32_t me)
{
    uint32_t strip = words / threads;
    for (uint32_t i = me * strip; i < (me + 1) * strip; i++)
        __atomic_fetch_add(&memory[memory[BINS + i] % BINS], 1, __ATOMIC_RELAXED);
    if (!faulty)
        wait_for_all();
    if (me == 0) {
        uint32_t greatest = 0;
        for (uint32_t bin = 0; bin < BINS; bin++)
            if (memory[bin] > greatest)
                greatest = memory[bin];
        memory[BINS + words] = greatest;
    }
}
