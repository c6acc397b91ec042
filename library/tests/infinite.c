/* What is told of opened infinite quotients: of 0.354 to heap 5, of which docs/INFINITE.md has the family; and of all heaps
 * of 0.26, of which docs/WHOLE.md has the theorem.
 * cc infinite.c ../libmisere.a -o infinite && ./infinite FOLDER-OF-CERTIFICATES */
#include "../misere.h"
#include <stdio.h>
#include <stdlib.h>
#include <string.h>

static uint8_t bytes[MISERE_MOST];
static size_t length;

static void stop_unless(int right, const char *what) {
    if (right) return;
    fprintf(stderr, "infinite: %s\n", what);
    exit(1);
}

static void take(const char *folder, const char *name) {
    char path[4096];
    snprintf(path, sizeof path, "%s/%s", folder, name);
    FILE *file = fopen(path, "rb");
    stop_unless(file != NULL, path);
    length = fread(bytes, 1, sizeof bytes, file);
    fclose(file);
}

/* A heap, and as many of two others. */
static size_t put(uint64_t *heaps, uint64_t one, uint64_t some, size_t times, uint64_t more, size_t others) {
    size_t count = 0;
    heaps[count++] = one;
    while (times--) heaps[count++] = some;
    while (others--) heaps[count++] = more;
    return count;
}

static void refuse(const char *folder) {
    static const struct {
        const char *name;
        uint32_t status;
    } rows[] = {
        {"refused/outcome_at_two_twos.mqp", MISERE_OUTCOME},
        {"refused/part_heap_left_out.mqp", MISERE_LEAVES},
        {"0.33.mqc", MISERE_TEXT},
    };
    for (size_t at = 0; at < sizeof rows / sizeof *rows; at++) {
        misere_infinite one = MISERE_INFINITE_CLOSED;
        uint64_t heaps[4] = {7, 7, 7, 7}, count = 7;
        take(folder, rows[at].name);
        stop_unless(misere_check_infinite(bytes, length) == rows[at].status, rows[at].name);
        stop_unless(misere_infinite_open(bytes, length, &one) == rows[at].status, rows[at].name);
        stop_unless(misere_infinite_close(&one) == MISERE_NOT_OPEN, rows[at].name);
        stop_unless(misere_infinite_failure(bytes, length, heaps, 4, &count) == rows[at].status, rows[at].name);
        if (at) stop_unless(count == 7 && heaps[0] == 7, "a position is told where none fails");
        else stop_unless(count == 2 && heaps[0] == 2 && heaps[1] == 2 && heaps[2] == 7, "another position fails");
    }
}

/* 4 + j 2 + i 5 is P exactly if i - 3 j is 4, 10, 16, .. */
static void of_0_354(misere_infinite *opened) {
    uint64_t heaps[100];
    uint32_t number;
    misere_move move;
    for (size_t j = 1; j < 6; j++)
        for (size_t i = 1; i < 50; i++) {
            int lost = i >= 3 * j + 4 && (i - 3 * j - 4) % 6 == 0;
            size_t count = put(heaps, 4, 5, i, 2, j);
            stop_unless(!misere_infinite_outcome(opened, heaps, count, &number), "no outcome of 0.354");
            stop_unless(number == (lost ? MISERE_P : MISERE_N), "another outcome of 0.354");
            stop_unless(!misere_infinite_answer(opened, heaps, count, &move), "no move of 0.354");
            stop_unless(move.kind == (lost ? MISERE_LOST : MISERE_WINS), "another move of 0.354");
            stop_unless(heaps[0] == 2 && heaps[count - 1] == 5, "the heaps don't rise");
        }
    size_t count = put(heaps, 4, 2, 1, 5, 8);
    stop_unless(!misere_infinite_answer(opened, heaps, count, &move), "no move at 2 4 and eight 5");
    stop_unless(move.kind == MISERE_WINS && move.heap == 4 && move.first == 3 && !move.second, "not 4 -> 3");
}

/* The same of many positions at once. */
static void of_0_354_at_once(misere_infinite *opened) {
    uint64_t heaps[64 * 49], ends[49];
    uint32_t numbers[49];
    misere_move moves[49];
    size_t count = 0, all = 0;
    for (size_t j = 1; j < 8; j++)
        for (size_t i = 10; i < 17; i++) {
            count += put(heaps + count, 4, 2, j, 5, i);
            ends[all++] = count;
        }
    stop_unless(!misere_infinite_outcomes(opened, heaps, count, ends, all, numbers, all), "no outcomes of 0.354");
    stop_unless(!misere_infinite_answers(opened, heaps, count, ends, all, moves, all), "no moves of 0.354");
    for (size_t at = 0, j = 1; j < 8; j++)
        for (size_t i = 10; i < 17; i++, at++) {
            int lost = i >= 3 * j + 4 && (i - 3 * j - 4) % 6 == 0;
            stop_unless(numbers[at] == (lost ? MISERE_P : MISERE_N), "another outcome of many");
            stop_unless(moves[at].kind == (lost ? MISERE_LOST : MISERE_WINS), "another move of many");
        }
    stop_unless(misere_infinite_outcomes(opened, heaps, count, ends, all, numbers, all - 1) == MISERE_NOT_ENDS, "no room");
}

static uint64_t weight(uint64_t heap) {
    if (heap >= 9) return (heap - 5) / 2;
    return heap == 3 || heap == 4 || heap == 7 || heap == 8;
}

/* Whether a heap of 0.26 rules others of this weight. */
static int rules(uint64_t heap, uint64_t others) {
    if (heap == 10) return !others;
    if (heap < 9 || heap == 12) return 0;
    return others <= (heap - (heap % 2 ? 9 : 14)) / 2;
}

/* Two heaps, one of them large, and some of 3. P are those of nim sum 0 that no heap rules, and those of 2 that one does; of
 * weight 0 those of nim sum 1. */
static void of_0_26(misere_infinite *opened) {
    uint64_t heaps[100], kind = 7, length_of_code = 7;
    uint8_t code[4];
    uint32_t number;
    misere_move move;
    stop_unless(!misere_infinite_kind(opened, &kind) && kind == 0, "0.26 isn't a whole game");
    stop_unless(!misere_infinite_code(opened, code, 4, &length_of_code) && length_of_code == 4, "0.26 has no code");
    stop_unless(!memcmp(code, "0.26", 4), "0.26 has another code");
    for (uint64_t large = 1; large < 2000000000000000; large = large * 5 / 4 + 1)
        for (uint64_t heap = 1; heap < 20; heap++)
            for (size_t threes = 0; threes < 40; threes++) {
                uint64_t of_threes = threes, all = weight(large) + weight(heap) + of_threes;
                uint64_t nim_sum = (large - 1) % 4 ^ (heap - 1) % 4 ^ (threes % 2 ? 2 : 0);
                int ruled = rules(large, all - weight(large)) || rules(heap, all - weight(heap));
                int lost = nim_sum == (!all ? 1u : ruled ? 2u : 0u);
                size_t count = put(heaps, large, heap, 1, 3, threes);
                stop_unless(!misere_infinite_outcome(opened, heaps, count, &number), "no outcome of 0.26");
                stop_unless(number == (lost ? MISERE_P : MISERE_N), "another outcome of 0.26");
                stop_unless(!misere_infinite_answer(opened, heaps, count, &move), "no move of 0.26");
                stop_unless(lost == (move.kind == MISERE_LOST), "another move of 0.26");
            }
    uint64_t none[2] = {1, 0};
    stop_unless(misere_infinite_outcome(opened, none, 2, &number) == MISERE_NOT_A_HEAP, "a heap of 0");
    stop_unless(misere_infinite_describe(opened, MISERE_JSON, code, 4, &kind) == MISERE_NOT_DESCRIBED, "it is described");
}

/* Heaps that aren't any, and heaps of which the text doesn't speak; and owners that are closed. */
static void refuse_heaps(misere_infinite *opened, uint64_t beyond) {
    uint64_t heaps[2] = {1, beyond}, none[2] = {beyond, 0};
    uint32_t number = 77;
    misere_move move = {.kind = 77};
    misere_infinite closed = MISERE_INFINITE_CLOSED, other = MISERE_INFINITE_CLOSED;
    stop_unless(misere_infinite_outcome(opened, heaps, 2, &number) == MISERE_BEYOND, "a heap beyond");
    stop_unless(misere_infinite_answer(opened, heaps, 2, &move) == MISERE_BEYOND, "a heap beyond");
    stop_unless(misere_infinite_outcome(opened, none, 2, &number) == MISERE_NOT_A_HEAP, "a heap of 0");
    stop_unless(misere_infinite_answer(opened, none, 2, &move) == MISERE_NOT_A_HEAP, "a heap of 0");
    stop_unless(misere_infinite_outcome(&closed, none, 2, &number) == MISERE_NOT_OPEN, "a closed one");
    stop_unless(number == 77 && move.kind == 77 && none[0] == beyond, "something is told");
    stop_unless(misere_infinite_share(&closed, &other) == MISERE_NOT_OPEN, "an owner of nothing");
    stop_unless(misere_infinite_close(&closed) == MISERE_NOT_OPEN, "closed twice");
    stop_unless(!misere_infinite_share(opened, &other) && !misere_infinite_close(opened), "no second owner");
    stop_unless(!misere_infinite_outcome(&other, heaps, 1, &number), "a second owner tells nothing");
    stop_unless(!misere_infinite_close(&other), "a second owner isn't closed");
}

int main(int argc, char **argv) {
    if (argc != 2) return 2;
    refuse(argv[1]);
    misere_infinite opened = MISERE_INFINITE_CLOSED;
    take(argv[1], "0.354_heaps_5.mqp");
    stop_unless(!misere_infinite_open(bytes, length, &opened), "0.354 isn't opened");
    of_0_354(&opened);
    of_0_354_at_once(&opened);
    refuse_heaps(&opened, 6);
    take(argv[1], "0.26.mqw");
    stop_unless(!misere_infinite_open(bytes, length, &opened), "0.26 isn't opened");
    of_0_26(&opened);
    stop_unless(!misere_infinite_close(&opened), "0.26 isn't closed");
    return 0;
}
