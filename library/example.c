/* cc example.c -lmisere -o example && ./example CERTIFICATE < POSITIONS
 * Of each line of standard input, a position of heaps, it prints value, outcome and answer. */
#include "misere.h"
#include <inttypes.h>
#include <stdio.h>
#include <stdlib.h>

#define MOST_HEAPS 64

static misere_opened quotient = MISERE_CLOSED;

/* Opens the quotient of the certificate in a file, and answers the status. */
static uint32_t open_file(const char *name) {
    static uint8_t bytes[MISERE_MOST];
    FILE *file = fopen(name, "rb");
    if (!file) return MISERE_TEXT;
    size_t length = fread(bytes, 1, sizeof bytes, file);
    fclose(file);
    return misere_open(bytes, length, MISERE_LIMIT, &quotient);
}

static void tell_answer(const misere_move *move) {
    if (move->kind == MISERE_ENDED) puts("ended");
    else if (move->kind == MISERE_LOST) puts("lost");
    else {
        printf("wins %" PRIu64 " -> %" PRIu64, move->heap, move->first);
        if (move->second) printf(" %" PRIu64, move->second);
        if (move->third) printf(" %" PRIu64, move->third);
        puts("");
    }
}

/* Tells of one position, and answers the status. */
static uint32_t tell(uint64_t *heaps, size_t count) {
    uint32_t outcome, value, status;
    misere_move move;
    if ((status = misere_opened_outcome(&quotient, heaps, count, &outcome))
        || (status = misere_opened_value(&quotient, heaps, count, &value))
        || (status = misere_opened_answer(&quotient, heaps, count, &move))) {
        printf("no %" PRIu32 "\n", status);
        return status;
    }
    printf("%" PRIu32 " %c ", value, outcome == MISERE_P ? 'P' : 'N');
    tell_answer(&move);
    return 0;
}

static size_t read_heaps(char *line, uint64_t *heaps) {
    size_t count = 0;
    char *after;
    for (;; line = after) {
        uint64_t heap = strtoull(line, &after, 10);
        if (after == line || count == MOST_HEAPS) return count;
        heaps[count++] = heap;
    }
}

int main(int argc, char **argv) {
    char line[2048];
    uint64_t heaps[MOST_HEAPS];
    uint32_t status;
    if (argc != 2 || misere_version() != MISERE_VERSION) {
        fprintf(stderr, "usage: %s CERTIFICATE < POSITIONS, with libmisere of version %d\n", argv[0], MISERE_VERSION);
        return 2;
    }
    if ((status = open_file(argv[1]))) {
        printf("no %" PRIu32 "\n", status);
        return 1;
    }
    while (!status && fgets(line, sizeof line, stdin))
        status = tell(heaps, read_heaps(line, heaps));
    misere_close(&quotient);
    return status != 0;
}
