/* Compares the products and shifts of wide.c with those of the compiler that compiles this. */
#include <stdio.h>

typedef unsigned long long u64;
typedef unsigned __int128 u128;
enum { ROWS = 1000000 };

u128 __multi3(u128 a, u128 b);
u128 __ashlti3(u128 a, int bits);
u128 __lshrti3(u128 a, int bits);

/* Numbers that look random and are the same in each run (xorshift). */
static u64 next(u64 *state) {
    *state ^= *state << 13;
    *state ^= *state >> 7;
    *state ^= *state << 17;
    return *state;
}

/* A number of any length. */
static u128 number(u64 *state) {
    u128 high = next(state);
    return ((high << 64) | next(state)) >> (next(state) % 128);
}

int main(void) {
    u64 state = 58;
    for (int row = 0; row < ROWS; row++) {
        u128 a = number(&state), b = number(&state);
        int bits = row % 128;
        if (__multi3(a, b) == a * b && __ashlti3(a, bits) == a << bits && __lshrti3(a, bits) == a >> bits) continue;
        printf("row %d: a product or a shift of 128 bits differs\n", row);
        return 1;
    }
    printf("%d products and shifts of 128 bits agree\n", ROWS);
    return 0;
}
