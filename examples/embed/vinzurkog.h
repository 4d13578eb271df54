// The call that libvinzurkog.a exports. docs/EMBEDDING.md says what it answers and what a caller owes.
#ifndef VINZURKOG_H
#define VINZURKOG_H

#include <stddef.h>
#include <stdint.h>

#ifdef __cplusplus
extern "C" {
#endif

enum vinzurkog_answer {
    VINZURKOG_EVEN = 0,
    VINZURKOG_UNEVEN = 1,
    VINZURKOG_NO_TEXT = 2,
    VINZURKOG_FEW = 3,
};

// How many work words a call asks for. The sum is taken in 64 bits, in which sizes that fit a memory don't overflow.
static inline uint64_t vinzurkog_work_words(uint64_t kernel_words, uint64_t memory_words, uint32_t threads) {
    return 4096 + 8 * kernel_words + 4 * memory_words + 1024 * (uint64_t)threads;
}

uint32_t vinzurkog_run(const uint32_t *kernel, size_t kernel_words,
                       uint32_t threads, uint32_t turns,
                       uint32_t *memory, size_t memory_words,
                       uint8_t *states, size_t state_bytes,
                       uint32_t *work, size_t work_words,
                       uint64_t *clash, size_t clash_words);

#ifdef __cplusplus
}
#endif

#endif
