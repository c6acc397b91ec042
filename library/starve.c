/* Refuses the nth growth, for each n in turn: every call then answers MISERE_MEMORY, tells nothing and keeps nothing. Of
 * positions of an opened quotient a call takes no memory at all, but for the answers in many.
 * cc -Wl,--wrap=malloc,--wrap=realloc,--wrap=free starve.c libmisere.a -o starve && ./starve CERTIFICATE */
#include "misere.h"
#include <stdio.h>
#include <stdlib.h>
#include <string.h>

void *__real_malloc(size_t n);
void *__real_realloc(void *at, size_t n);
void __real_free(void *at);
static long calls, refused, held;

static int refuses(void) { return ++calls == refused; }
void *__wrap_malloc(size_t n) {
    void *at = refuses() ? NULL : __real_malloc(n);
    held += at != NULL;
    return at;
}
void *__wrap_realloc(void *old, size_t n) {
    void *at = refuses() ? NULL : __real_realloc(old, n);
    held += !old && at;
    return at;
}
void __wrap_free(void *at) { held -= at != NULL; __real_free(at); }

static uint8_t bytes[MISERE_MOST];
static size_t length;

/* All that a call may tell. Before each call it is filled with one byte. */
static struct {
    uint32_t numbers[2];
    misere_move moves[2];
    uint64_t heaps[8], count;
    uint8_t text[1 << 16];
} told, untold;

/* That of the text, if it is accepted: a certificate of a finite quotient; or one of a whole game, or a presentation. Else
 * every call on it answers MISERE_NOT_OPEN. */
static misere_opened opened = MISERE_CLOSED;
static misere_infinite infinite = MISERE_INFINITE_CLOSED;

static const uint64_t heaps[12] = {2, 3, 1, 4, 2, 3, 1, 4, 2, 3, 1, 2}, ends[2] = {2, 12};

static uint32_t check(void) { return misere_check(bytes, length, MISERE_LIMIT); }
static uint32_t outcome(void) { return misere_outcome(bytes, length, MISERE_LIMIT, heaps, 12, told.numbers); }
static uint32_t value(void) { return misere_value(bytes, length, MISERE_LIMIT, heaps, 12, told.numbers); }
static uint32_t answer(void) { return misere_answer(bytes, length, MISERE_LIMIT, heaps, 12, told.moves); }
static uint32_t outcomes(void) { return misere_outcomes(bytes, length, MISERE_LIMIT, heaps, 12, ends, 2, told.numbers, 2); }
static uint32_t values(void) { return misere_values(bytes, length, MISERE_LIMIT, heaps, 12, ends, 2, told.numbers, 2); }
static uint32_t answers(void) { return misere_answers(bytes, length, MISERE_LIMIT, heaps, 12, ends, 2, told.moves, 2); }
static uint32_t failure(void) { return misere_failure(bytes, length, MISERE_LIMIT, told.heaps, 8, &told.count); }
static uint32_t solve(void) {
    return misere_solve((const uint8_t *)"0.3", 3, 1000, 4, MISERE_WHOLE, 8, 8, told.text, sizeof told.text, &told.count);
}
static uint32_t solve_why(void) {
    return misere_solve_why((const uint8_t *)"0.4", 3, 1000, 4, MISERE_WHOLE, 2, 8, told.text, sizeof told.text, &told.count);
}
static uint32_t solve_infinite(void) {
    return misere_solve_infinite((const uint8_t *)"0.3", 3, 2, told.text, sizeof told.text, &told.count);
}
static uint32_t solve_presented(void) {
    return misere_solve_presented((const uint8_t *)"0.3", 3, 2, told.text, sizeof told.text, &told.count);
}
static uint32_t certify(void) {
    static const char table[] = "table 1\ncode 0.3\norder 2\nstart 1\nperiod 2\nheaps 0 1\nportion 0\nrow 1 0\nrow 0 1\nend\n";
    return misere_certify((const uint8_t *)table, sizeof table - 1, MISERE_LIMIT, told.text, sizeof told.text, &told.count);
}
static uint32_t certify_other(void) {
    static const char table[] = "table 1\ncode 0.3\norder 2\nstart 1\nperiod 2\nheaps 1 0\nportion 0\nrow 0 1\nrow 1 0\nend\n";
    return misere_certify((const uint8_t *)table, sizeof table - 1, MISERE_LIMIT, told.text, sizeof told.text, &told.count);
}
static uint32_t describe(void) {
    return misere_describe(bytes, length, MISERE_LIMIT, MISERE_LATEX, MISERE_SHORT, told.text, sizeof told.text, &told.count);
}

static void stop_unless(int right, const char *what) {
    if (right) return;
    printf("%s\n", what);
    exit(1);
}

/* Opens it, or makes another owner of it, and closes that. One that isn't told stays closed. */
static uint32_t open_one(void) {
    misere_opened one = MISERE_CLOSED;
    uint32_t status = misere_open(bytes, length, MISERE_LIMIT, &one);
    stop_unless(misere_close(&one) == (status ? MISERE_NOT_OPEN : MISERE_YES), "an owner isn't as its status says");
    return status;
}
static uint32_t share(void) {
    misere_opened one = MISERE_CLOSED;
    uint32_t status = misere_share(&opened, &one);
    stop_unless(misere_close(&one) == (status ? MISERE_NOT_OPEN : MISERE_YES), "an owner isn't as its status says");
    return status;
}

/* Opens it where there is another owner, which goes on if that is refused. */
static uint32_t open_over(void) {
    misere_opened one = MISERE_CLOSED;
    uint32_t number, status = misere_share(&opened, &one);
    if (status) return status;
    status = misere_open(bytes, length, MISERE_LIMIT, &one);
    stop_unless(!misere_opened_value(&one, heaps, 12, &number) && !misere_close(&one), "what stays open isn't told");
    return status;
}

static uint32_t opened_outcome(void) { return misere_opened_outcome(&opened, heaps, 12, told.numbers); }
static uint32_t opened_value(void) { return misere_opened_value(&opened, heaps, 12, told.numbers); }
static uint32_t opened_answer(void) {
    uint64_t mine[12];
    memcpy(mine, heaps, sizeof mine);
    return misere_opened_answer(&opened, mine, 12, told.moves);
}
static uint32_t opened_outcomes(void) { return misere_opened_outcomes(&opened, heaps, 12, ends, 2, told.numbers, 2); }
static uint32_t opened_values(void) { return misere_opened_values(&opened, heaps, 12, ends, 2, told.numbers, 2); }
static uint32_t opened_answers(void) { return misere_opened_answers(&opened, heaps, 12, ends, 2, told.moves, 2); }
static uint32_t opened_describe(void) {
    return misere_opened_describe(&opened, MISERE_LATEX, MISERE_SHORT, told.text, sizeof told.text, &told.count);
}

static uint32_t check_infinite(void) { return misere_check_infinite(bytes, length); }
static uint32_t infinite_failure(void) {
    return misere_infinite_failure(bytes, length, told.heaps, 8, &told.count);
}
static uint32_t infinite_open(void) {
    misere_infinite one = MISERE_INFINITE_CLOSED;
    uint32_t status = misere_infinite_open(bytes, length, &one);
    stop_unless(misere_infinite_close(&one) == (status ? MISERE_NOT_OPEN : MISERE_YES), "an owner isn't as its status says");
    return status;
}
static uint32_t infinite_share(void) {
    misere_infinite one = MISERE_INFINITE_CLOSED;
    uint32_t status = misere_infinite_share(&infinite, &one);
    stop_unless(misere_infinite_close(&one) == (status ? MISERE_NOT_OPEN : MISERE_YES), "an owner isn't as its status says");
    return status;
}
static uint32_t infinite_open_over(void) {
    misere_infinite one = MISERE_INFINITE_CLOSED;
    uint32_t number, status = misere_infinite_share(&infinite, &one);
    if (status) return status;
    status = misere_infinite_open(bytes, length, &one);
    stop_unless(!misere_infinite_outcome(&one, heaps, 12, &number) && !misere_infinite_close(&one), "what stays open isn't told");
    return status;
}
static uint32_t infinite_kind(void) { return misere_infinite_kind(&infinite, &told.count); }
static uint32_t infinite_order(void) { return misere_infinite_order(&infinite, &told.count); }
static uint32_t infinite_code(void) { return misere_infinite_code(&infinite, told.text, sizeof told.text, &told.count); }
static uint32_t infinite_outcome(void) { return misere_infinite_outcome(&infinite, heaps, 12, told.numbers); }
static uint32_t infinite_answer(void) {
    uint64_t mine[12];
    memcpy(mine, heaps, sizeof mine);
    return misere_infinite_answer(&infinite, mine, 12, told.moves);
}
static uint32_t infinite_outcomes(void) { return misere_infinite_outcomes(&infinite, heaps, 12, ends, 2, told.numbers, 2); }
static uint32_t infinite_answers(void) { return misere_infinite_answers(&infinite, heaps, 12, ends, 2, told.moves, 2); }
static uint32_t infinite_describe(void) {
    return misere_infinite_describe(&infinite, MISERE_LATEX, told.text, sizeof told.text, &told.count);
}
static uint32_t infinite_value(void) {
    return misere_infinite_value(&infinite, heaps, 12, told.text, sizeof told.text, &told.count);
}

static const struct {
    const char *name;
    uint32_t (*ask)(void);
    int takes_memory;
} calls_of[] = {
    {"check", check, 1},
    {"outcome", outcome, 1},
    {"value", value, 1},
    {"answer", answer, 1},
    {"outcomes", outcomes, 1},
    {"values", values, 1},
    {"answers", answers, 1},
    {"failure", failure, 1},
    {"solve", solve, 1},
    {"solve_why", solve_why, 1},
    {"solve_infinite", solve_infinite, 1},
    {"solve_presented", solve_presented, 1},
    {"certify", certify, 1},
    {"certify what fails", certify_other, 1},
    {"describe", describe, 1},
    {"open", open_one, 1},
    {"share", share, 1},
    {"open over another", open_over, 1},
    {"opened_outcome", opened_outcome, 0},
    {"opened_value", opened_value, 0},
    {"opened_answer", opened_answer, 0},
    {"opened_outcomes", opened_outcomes, 0},
    {"opened_values", opened_values, 0},
    {"opened_answers", opened_answers, 1},
    {"opened_describe", opened_describe, 1},
    {"check_infinite", check_infinite, 1},
    {"infinite_failure", infinite_failure, 1},
    {"infinite_open", infinite_open, 1},
    {"infinite_share", infinite_share, 1},
    {"infinite_open over another", infinite_open_over, 1},
    {"infinite_kind", infinite_kind, 0},
    {"infinite_order", infinite_order, 0},
    {"infinite_code", infinite_code, 1},
    {"infinite_outcome", infinite_outcome, 0},
    {"infinite_answer", infinite_answer, 0},
    {"infinite_outcomes", infinite_outcomes, 0},
    {"infinite_answers", infinite_answers, 1},
    {"infinite_describe", infinite_describe, 1},
    {"infinite_value", infinite_value, 1},
};
#define CALLS (sizeof calls_of / sizeof *calls_of)

/* Refuses each growth of a call in turn; answers whether it stood all. */
static int starve(size_t call) {
    const char *name = calls_of[call].name;
    for (refused = 1;; refused++) {
        long before = held;
        memset(&told, 77, sizeof told);
        calls = 0;
        uint32_t status = calls_of[call].ask();
        if (held != before) return printf("%s keeps memory\n", name), 0;
        if (calls && !calls_of[call].takes_memory) return printf("%s takes memory\n", name), 0;
        if (calls < refused) {
            printf("%s: each of %ld growths refused in turn, then status %u\n", name, refused - 1, status);
            return status != MISERE_MEMORY;
        }
        if (status != MISERE_MEMORY || memcmp(&told, &untold, sizeof told))
            return printf("%s, growth %ld refused: %u\n", name, refused, status), 0;
    }
}

int main(int argc, char **argv) {
    FILE *file = argc == 2 ? fopen(argv[1], "rb") : NULL;
    if (!file) return 2;
    length = fread(bytes, 1, sizeof bytes, file);
    fclose(file);
    memset(&untold, 77, sizeof untold);
    long before = held;
    uint32_t status = misere_open(bytes, length, MISERE_LIMIT, &opened);
    uint32_t infinite_status = misere_infinite_open(bytes, length, &infinite);
    for (size_t call = 0; call < CALLS; call++)
        if (!starve(call)) return 1;
    stop_unless(misere_close(&opened) == (status ? MISERE_NOT_OPEN : MISERE_YES), "it isn't closed");
    stop_unless(misere_close(&opened) == MISERE_NOT_OPEN, "it is closed twice");
    stop_unless(misere_infinite_close(&infinite) == (infinite_status ? MISERE_NOT_OPEN : MISERE_YES), "it isn't closed");
    stop_unless(misere_infinite_close(&infinite) == MISERE_NOT_OPEN, "it is closed twice");
    stop_unless(held == before, "what is closed is kept");
    return 0;
}
