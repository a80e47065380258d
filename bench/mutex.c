// Turns under a pthread mutex: each thread locks, counts and unlocks, so many times.
// usage: mutex THREADS TURNS
#include <pthread.h>
#include <stdio.h>
#include <stdlib.h>
#include <time.h>

static pthread_mutex_t lock = PTHREAD_MUTEX_INITIALIZER;
static volatile unsigned long counted;
static unsigned long turns;

static void *take_turns(void *unused) {
    for (unsigned long i = 0; i < turns; i++) {
        pthread_mutex_lock(&lock);
        counted = counted + 1;
        pthread_mutex_unlock(&lock);
    }
    return unused;
}

int main(int count, char **words) {
    if (count != 3) {
        fprintf(stderr, "usage: mutex THREADS TURNS\n");
        return 2;
    }
    int threads = atoi(words[1]);
    turns = strtoul(words[2], NULL, 10);
    pthread_t *ids = calloc(threads, sizeof *ids);
    struct timespec start, end;
    clock_gettime(CLOCK_MONOTONIC, &start);
    for (int i = 0; i < threads; i++)
        pthread_create(&ids[i], NULL, take_turns, NULL);
    for (int i = 0; i < threads; i++)
        pthread_join(ids[i], NULL);
    clock_gettime(CLOCK_MONOTONIC, &end);
    double seconds = (end.tv_sec - start.tv_sec) + (end.tv_nsec - start.tv_nsec) / 1e9;
    printf("mutex: %d threads, %lu turns\n", threads, counted);
    fprintf(stderr, "mutex: %.0f turns/s\n", counted / seconds);
    return 0;
}
