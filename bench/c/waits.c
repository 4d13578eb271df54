/* Many waits on a large memory, with one touch between them: each thread writes its word, waits, reads its neighbour's
 * word, and waits again. */
#include "kernel.h"

enum { APART = 16 };

static uint32_t memory_words(void)
{
    return words;
}

static void fill(void)
{
    for (uint32_t place = 0; place < words; place++)
        memory[place] = any_word(place);
}

static void work(uint32_t me)
{
    uint32_t word = 0;
    for (uint32_t round = 0; round < rounds; round++) {
        memory[me * APART] = word + 1;
        wait_for_all();
        word = memory[(me + 1) % threads * APART];
        wait_for_all();
    }
}
