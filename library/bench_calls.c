/* What an outcome of three heaps takes, by a call of its own and among many, by the bytes and of an opened quotient.
 * cc -O2 bench_calls.c libmisere.a -o bench_calls && ./bench_calls CERTIFICATE ..
 * For each certificate it prints a line of these two by the bytes, and one of the opened quotient, in microseconds of
 * the processor. */
#include "misere.h"
#include <stdio.h>
#include <stdlib.h>
#include <time.h>

#define POSITIONS 1024
#define HEAPS 3
/* (a partial certificate has to speak of them) */
#define LARGEST 24
#define LONG_ENOUGH 0.1

static uint8_t bytes[MISERE_MOST];
static size_t length;
static uint64_t heaps[HEAPS * POSITIONS], ends[POSITIONS];
static uint32_t outcomes[POSITIONS];
static misere_opened quotient = MISERE_CLOSED;

static void stop_unless(int right, const char *what) {
    if (right) return;
    fprintf(stderr, "bench_calls: %s\n", what);
    exit(1);
}

static double seconds(void) {
    struct timespec now;
    clock_gettime(CLOCK_PROCESS_CPUTIME_ID, &now);
    return (double)now.tv_sec + 1e-9 * (double)now.tv_nsec;
}

static uint32_t alone(size_t at) {
    return misere_outcome(bytes, length, MISERE_LIMIT, heaps + HEAPS * at, HEAPS, outcomes + at);
}

static uint32_t all(size_t at) {
    (void)at;
    return misere_outcomes(bytes, length, MISERE_LIMIT, heaps, HEAPS * POSITIONS, ends, POSITIONS, outcomes, POSITIONS);
}

static uint32_t opened_alone(size_t at) {
    return misere_opened_outcome(&quotient, heaps + HEAPS * at, HEAPS, outcomes + at);
}

static uint32_t opened_all(size_t at) {
    (void)at;
    return misere_opened_outcomes(&quotient, heaps, HEAPS * POSITIONS, ends, POSITIONS, outcomes, POSITIONS);
}

/* The microseconds that a call takes: so many in a row as take long enough. */
static double microseconds(uint32_t (*call)(size_t)) {
    for (size_t count = 1;; count *= 2) {
        double begin = seconds();
        for (size_t at = 0; at < count; at++) stop_unless(!call(at % POSITIONS), "a call told nothing");
        double taken = seconds() - begin;
        if (taken > LONG_ENOUGH) return 1e6 * taken / (double)count;
    }
}

static void measure(const char *name) {
    FILE *file = fopen(name, "rb");
    stop_unless(file != NULL, name);
    length = fread(bytes, 1, sizeof bytes, file);
    fclose(file);
    stop_unless(!misere_open(bytes, length, MISERE_LIMIT, &quotient), "a certificate is refused");
    printf("%.3f %.3f\n", microseconds(alone), microseconds(all) / POSITIONS);
    printf("%.3f %.3f\n", microseconds(opened_alone), microseconds(opened_all) / POSITIONS);
}

int main(int argc, char **argv) {
    srand(60);
    for (size_t at = 0; at < HEAPS * POSITIONS; at++) heaps[at] = 1 + (uint64_t)rand() % LARGEST;
    for (size_t at = 0; at < POSITIONS; at++) ends[at] = HEAPS * (at + 1);
    for (int at = 1; at < argc; at++) measure(argv[at]);
    misere_close(&quotient);
    return 0;
}
