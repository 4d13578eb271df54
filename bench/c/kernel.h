/* What the kernels in C share: one memory, threads with a barrier, and the frame that times them.
 *
 * A kernel defines memory_words, fill and work, and is called as NAME THREADS ROUNDS WORDS FAULTY. It prints the
 * seconds from the start of the first thread to the end of the last, and a checksum of the memory behind them. Places
 * are laid out as in the text of the same name. */
#include <pthread.h>
#include <stdint.h>
#include <stdio.h>
#include <stdlib.h>
#include <time.h>

static uint32_t threads, rounds, words, faulty;
static uint32_t *memory;
static pthread_barrier_t barrier;

static uint32_t memory_words(void);
static void fill(void);
static void work(uint32_t me);

static inline void wait_for_all(void)
{
    pthread_barrier_wait(&barrier);
}

/* The same words as in the program that times the texts. */
static inline uint32_t any_word(uint32_t place)
{
    return place * UINT32_C(2654435761) >> 8;
}

static double now(void)
{
    struct timespec time;
    clock_gettime(CLOCK_MONOTONIC, &time);
    return time.tv_sec + time.tv_nsec * 1e-9;
}

static uint64_t checksum(void)
{
    uint64_t sum = UINT64_C(14695981039346656037);
    for (uint32_t place = 0; place < memory_words(); place++)
        sum = (sum ^ memory[place]) * UINT64_C(1099511628211);
    return sum;
}

static void *thread(void *me)
{
    work((uint32_t)(uintptr_t)me);
    return NULL;
}

static void run_threads(void)
{
    pthread_t *started = malloc(threads * sizeof *started);
    for (uint32_t me = 0; me < threads; me++)
        if (pthread_create(&started[me], NULL, thread, (void *)(uintptr_t)me) != 0)
            abort();
    for (uint32_t me = 0; me < threads; me++)
        pthread_join(started[me], NULL);
    free(started);
}

int main(int argc, char **argv)
{
    if (argc != 5)
        return 2;
    threads = strtoul(argv[1], NULL, 10);
    rounds = strtoul(argv[2], NULL, 10);
    words = strtoul(argv[3], NULL, 10);
    faulty = strtoul(argv[4], NULL, 10);
    memory = calloc(memory_words(), sizeof *memory);
    fill();
    pthread_barrier_init(&barrier, NULL, threads);
    double start = now();
    run_threads();
    printf("%.6f %llu\n", now() - start, (unsigned long long)checksum());
    return 0;
}
