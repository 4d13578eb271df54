/* Arithmetic in variables, and once in a hundred steps of it an add to the thread's own word. */
#include "kernel.h"

static uint32_t memory_words(void)
{
    return words;
}

static void fill(void)
{
    for (uint32_t place = 0; place < words; place++)
        memory[place] = any_word(place);
}

static void work(uint32_t me)
{
    uint32_t x = me, sum = 0;
    for (uint32_t round = 0; round < rounds; round++) {
        for (uint32_t i = 0; i < 100; i++) {
            x = x * 1664525 + 1013904223;
            sum += x / 65536 % 1000;
        }
        memory[me] += sum;
    }
}
