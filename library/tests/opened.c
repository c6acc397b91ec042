/* What is told of opened quotients, beside what is told of their bytes, and by eight threads at once.
 * cc opened.c ../libmisere.a -pthread -o opened && ./opened CERTIFICATE .. */
#include "../misere.h"
#include <pthread.h>
#include <stdio.h>
#include <stdlib.h>
#include <string.h>

#define POSITIONS 17000
#define MOST 12
#define THREADS 8

static uint8_t bytes[MISERE_MOST];
static size_t length;
static uint64_t heaps[MOST * POSITIONS], ends[POSITIONS];
static uint32_t values[POSITIONS], outcomes[POSITIONS];
static misere_move answers[POSITIONS];

static void stop_unless(int right, const char *what) {
    if (right) return;
    fprintf(stderr, "opened: %s\n", what);
    exit(1);
}

static uint64_t number_to(uint64_t most) {
    uint64_t made = 0;
    for (int at = 0; at < 5; at++) made = made << 15 ^ (uint64_t)rand();
    return 1 + made % most;
}

/* Positions of up to 12 heaps, small ones and ones as large as the certificate speaks of. */
static size_t make(uint64_t last) {
    size_t count = 0;
    for (size_t at = 0; at < POSITIONS; at++) {
        for (size_t some = (size_t)rand() % (MOST + 1); some > 0; some--)
            heaps[count++] = number_to(rand() % 2 && last > 40 ? 40 : last);
        ends[at] = count;
    }
    return count;
}

static size_t start_of(size_t at) { return at ? ends[at - 1] : 0; }

/* Asks each position again, of what is opened. */
static int stands(misere_opened *opened) {
    for (size_t at = 0; at < POSITIONS; at++) {
        size_t from = start_of(at), count = ends[at] - from;
        uint64_t room[MOST] = {0};
        uint32_t number;
        misere_move move;
        memcpy(room, heaps + from, count * sizeof *room);
        if (misere_opened_value(opened, room, count, &number) || number != values[at]) return 0;
        if (misere_opened_outcome(opened, room, count, &number) || number != outcomes[at]) return 0;
        if (misere_opened_answer(opened, room, count, &move) || memcmp(&move, answers + at, sizeof move)) return 0;
        for (size_t next = 1; next < count; next++)
            if (room[next - 1] > room[next]) return 0;
    }
    return 1;
}

/* Asks by another owner, while the one that it is made of is closed. */
static void *asks(void *opened) {
    misere_opened other = MISERE_CLOSED;
    if (misere_share(opened, &other) || misere_close(opened)) return opened;
    int right = stands(&other);
    return misere_close(&other) || !right ? opened : NULL;
}

/* Each thread has an owner of its own; the first is closed while they ask. */
static void ask_by_threads(misere_opened *opened) {
    static misere_opened owners[THREADS];
    pthread_t threads[THREADS];
    for (int at = 0; at < THREADS; at++) stop_unless(!misere_share(opened, owners + at), "no owner was made");
    for (int at = 0; at < THREADS; at++) stop_unless(!pthread_create(threads + at, NULL, asks, owners + at), "no thread");
    stop_unless(!misere_close(opened), "the first owner was not closed");
    for (int at = 0; at < THREADS; at++) {
        void *wrong;
        stop_unless(!pthread_join(threads[at], &wrong) && !wrong, "a thread was told something else");
    }
}

static void refuse(misere_opened *opened) {
    uint64_t none[1] = {0}, two[2] = {1, 2};
    uint32_t number = 77;
    misere_move move;
    stop_unless(misere_opened_outcome(opened, none, 1, &number) == MISERE_NOT_A_HEAP && number == 77, "a heap of 0");
    stop_unless(misere_opened_outcomes(opened, two, 2, none, 1, &number, 0) == MISERE_NOT_ENDS, "no room");
    misere_opened closed = MISERE_CLOSED;
    stop_unless(misere_opened_value(&closed, two, 2, &number) == MISERE_NOT_OPEN && number == 77, "a closed one");
    stop_unless(misere_opened_answer(&closed, two, 2, &move) == MISERE_NOT_OPEN, "a closed one's answer");
    stop_unless(misere_share(&closed, opened) == MISERE_NOT_OPEN, "an owner of nothing");
    stop_unless(misere_close(&closed) == MISERE_NOT_OPEN, "closed twice");
}

static void many(misere_opened *opened, size_t count) {
    static uint32_t numbers[POSITIONS];
    static misere_move moves[POSITIONS];
    stop_unless(!misere_opened_values(opened, heaps, count, ends, POSITIONS, numbers, POSITIONS), "no values");
    stop_unless(!memcmp(numbers, values, sizeof values), "other values");
    stop_unless(!misere_opened_outcomes(opened, heaps, count, ends, POSITIONS, numbers, POSITIONS), "no outcomes");
    stop_unless(!memcmp(numbers, outcomes, sizeof outcomes), "other outcomes");
    stop_unless(!misere_opened_answers(opened, heaps, count, ends, POSITIONS, moves, POSITIONS), "no answers");
    stop_unless(!memcmp(moves, answers, sizeof answers), "other answers");
}

/* (MISERE_GAP is the last output, and MISERE_BASIS the last form.) */
static void describe(misere_opened *opened) {
    static uint8_t text[1 << 16], other[1 << 16];
    for (uint32_t output = 0; output <= MISERE_GAP + 1; output++)
        for (uint32_t form = 0; form <= MISERE_BASIS + 1; form++) {
            uint64_t count = 0, others = 0;
            uint32_t status = misere_describe(bytes, length, MISERE_LIMIT, output, form, text, sizeof text, &count);
            stop_unless(status == misere_opened_describe(opened, output, form, other, sizeof other, &others)
                            && count == others && !memcmp(text, other, count), "another description");
            stop_unless((status == MISERE_NOT_IN_RANGE) == (output > MISERE_GAP || form > MISERE_BASIS), "no such output");
        }
}

/* The last heap of which a certificate speaks stands in its file's name, as 0.75_heaps_8. */
static uint64_t last_of(const char *name) {
    const char *at = strstr(name, "_heaps_");
    return at ? strtoull(at + 7, NULL, 10) : 1000000000000000000u;
}

static void try_file(const char *name) {
    FILE *file = fopen(name, "rb");
    stop_unless(file != NULL, name);
    length = fread(bytes, 1, sizeof bytes, file);
    fclose(file);
    size_t count = make(last_of(name));
    stop_unless(!misere_values(bytes, length, MISERE_LIMIT, heaps, count, ends, POSITIONS, values, POSITIONS), name);
    stop_unless(!misere_outcomes(bytes, length, MISERE_LIMIT, heaps, count, ends, POSITIONS, outcomes, POSITIONS), name);
    stop_unless(!misere_answers(bytes, length, MISERE_LIMIT, heaps, count, ends, POSITIONS, answers, POSITIONS), name);
    misere_opened opened = MISERE_CLOSED;
    stop_unless(!misere_open(bytes, length, MISERE_LIMIT, &opened), name);
    /* (what was opened before is closed by this) */
    stop_unless(!misere_open(bytes, length, MISERE_LIMIT, &opened), name);
    stop_unless(misere_open(bytes, length - 1, MISERE_LIMIT, &opened) == MISERE_TEXT, "half a text was opened");
    refuse(&opened);
    describe(&opened);
    many(&opened, count);
    stop_unless(stands(&opened), "something else is told of what is opened");
    ask_by_threads(&opened);
}

int main(int argc, char **argv) {
    srand(60);
    for (int at = 1; at < argc; at++) try_file(argv[at]);
    printf("%d positions of %d quotients, opened, by %d threads: all as by their bytes\n", POSITIONS * (argc - 1), argc - 1, THREADS);
    return 0;
}
