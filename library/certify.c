/* cc certify.c -lmisere -o certify && ./certify < TABLE
 * Prints the certificate of a quotient of one's own, or what is wrong with its table, as `misere certify -` does. */
#include "misere.h"
#include <inttypes.h>
#include <stdio.h>

/* The longest text of a table has less */
static uint8_t table[96 << 20], told[MISERE_MOST];

int main(void) {
    size_t length = fread(table, 1, sizeof table, stdin);
    uint64_t count = 0;
    uint32_t status = misere_certify(table, length, MISERE_LIMIT, told, sizeof told, &count);
    if (status == MISERE_MEMORY || status == MISERE_NO_ROOM) {
        fprintf(stderr, "no %" PRIu32 "\n", status);
        return 3;
    }
    fwrite(told, 1, count, stdout);
    return status != MISERE_YES;
}
