// Runs two worked texts through the static library: the sum of two threads' words, with and without its wait.
#include <inttypes.h>
#include <stdio.h>
#include <stdlib.h>

#include "vinzurkog.h"

#define LENGTH(array) (sizeof(array) / sizeof((array)[0]))

// Runs the text by two threads on the words 5 and 7, and prints what comes of it.
static int run_sum(const uint32_t *kernel, size_t kernel_words) {
    uint32_t memory[] = {5, 7};
    uint8_t states[2];
    uint64_t clash[3];
    size_t work_words = vinzurkog_work_words(kernel_words, LENGTH(memory), 2);
    uint32_t *work = malloc(work_words * sizeof *work);
    if (work == NULL) {
        fputs("sum: there is no memory for the work words\n", stderr);
        return EXIT_FAILURE;
    }
    uint32_t answer = vinzurkog_run(kernel, kernel_words, 2, 9, memory, LENGTH(memory), states, LENGTH(states),
                                    work, work_words, clash, LENGTH(clash));
    free(work);
    switch (answer) {
    case VINZURKOG_EVEN:
        printf("even: memory %" PRIu32 " %" PRIu32 ", states %d %d\n", memory[0], memory[1], states[0], states[1]);
        return EXIT_SUCCESS;
    case VINZURKOG_UNEVEN:
        printf("uneven: threads %" PRIu64 " and %" PRIu64 " clash at place %" PRIu64 "\n", clash[0], clash[1], clash[2]);
        return EXIT_SUCCESS;
    default:
        printf("answer %" PRIu32 "\n", answer);
        return EXIT_FAILURE;
    }
}

int main(void) {
    // read variable 0 from place me; wait; add variable 0 to place 0
    static const uint32_t sum[] = {1, 1, 3, 0, 2, 1, 8, 5, 0, 0, 1, 0};
    // the same without the wait
    static const uint32_t sum_no_wait[] = {1, 1, 3, 0, 2, 5, 0, 0, 1, 0};
    int with_wait = run_sum(sum, LENGTH(sum));
    int without_wait = run_sum(sum_no_wait, LENGTH(sum_no_wait));
    return with_wait == EXIT_SUCCESS && without_wait == EXIT_SUCCESS ? EXIT_SUCCESS : EXIT_FAILURE;
}
