/* Each thread computes its cells of the new array from the old one; behind a wait it copies them back, and waits again.
 * The faulty one lacks the second wait. */
#include "kernel.h"

static uint32_t memory_words(void)
{
    return 2 * words;
}

static void fill(void)
{
    for (uint32_t place = 0; place < words; place++)
        memory[place] = any_word(place);
}

static void work(uint32_t me)
{
    uint32_t strip = words / threads, begin = me * strip, end = begin + strip;
    uint32_t *old_cells = memory, *new_cells = memory + words;
    for (uint32_t round = 0; round < rounds; round++) {
        for (uint32_t i = begin; i < end; i++)
            new_cells[i] = (old_cells[(i + words - 1) % words] + 2 * old_cells[i] + old_cells[(i + 1) % words]) / 4;
        wait_for_all();
        for (uint32_t i = begin; i < end; i++)
            old_cells[i] = new_cells[i];
        if (!faulty)
            wait_for_all();
    }
}
