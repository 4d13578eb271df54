/* A tree of sums, with a wait behind each level: the word at a multiple of twice the span becomes the sum of two. */
#include "kernel.h"

static uint32_t memory_words(void)
{
    return words;
}

static void fill(void)
{
    for (uint32_t place = 0; place < words; place++)
        memory[place] = any_word(place);
}

static void work(uint32_t me)
{
    for (uint32_t round = 0; round < rounds; round++)
        for (uint32_t span = 1; span < words; span *= 2) {
            for (uint32_t i = 2 * span * me; i < words; i += 2 * span * threads)
                memory[i] += memory[i + span];
            wait_for_all();
        }
}
