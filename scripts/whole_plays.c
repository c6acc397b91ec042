/* What texts of whole games say, beside a search of all plays. It shares nothing with the checker: it reads the
   text, makes the moves and finds the outcomes by itself. scripts/whole_plays compiles and runs it.

       whole_plays TOTAL COUNT LARGEST SEED < TEXT

   First the misère outcome of each position of total at most TOTAL is found by the moves alone, and compared with
   what the text says. Then COUNT positions of heaps up to LARGEST are drawn, and the rule of play is looked at: what
   the text says of each and of all its options. It prints six numbers: positions searched, of these wrong, positions
   drawn, of these wrong, and how many of these some heap rules and nearly does or doesn't. */
#include <stdint.h>
#include <stdio.h>
#include <stdlib.h>
#include <string.h>

enum { DIGITS = 17, LISTED = 4096, HEAPS = 64, FEW = 12 };

static int digit[DIGITS], digits;
static int start, period, rise, odd[LISTED], weight[LISTED], lead[LISTED];

static void fail(const char *why) {
    fprintf(stderr, "whole_plays: %s\n", why);
    exit(2);
}

static int hex_digit(int byte) {
    if (byte >= '0' && byte <= '9') return byte - '0';
    if (byte >= 'a' && byte <= 'f') return byte - 'a' + 10;
    fail("no digit");
    return 0;
}

static void read_numbers(const char *name, int *list, int count) {
    char word[32];
    if (scanf("%31s", word) != 1 || strcmp(word, name)) fail(name);
    for (int n = 1; n <= count; n++)
        if (scanf("%d", &list[n]) != 1) fail(name);
}

static void read_text(void) {
    char code[64];
    if (scanf("mqw 1 code %63s start %d period %d rise %d", code, &start, &period, &rise) != 4) fail("front");
    if (start < 1 || period < 1 || start + period > LISTED) fail("ranges");
    for (const char *byte = code; *byte; byte++)
        if (*byte != '.') {
            if (digits == DIGITS) fail("code");
            digit[digits++] = hex_digit(*byte);
        }
    read_numbers("odd", odd, start + period - 1);
    read_numbers("weights", weight, start + period - 1);
    read_numbers("leads", lead, start + period - 1);
}

/* What the text says of the heap n. */
struct label { int odd; long weight, lead; };

static struct label label_of(int n) {
    int laps = n < start ? 0 : (n - start) / period, of = n - laps * period;
    struct label it = {odd[of], weight[of] + (long)laps * rise, lead[of] ? lead[of] + (long)laps * rise : 0};
    return it;
}

/* What is known of some heaps: parity, weight, and the largest sum of a heap's lead and weight. */
struct sum { int odd; long weight, most; };

static const struct sum nothing = {0, 0, -1};

static struct sum with(struct sum all, int n) {
    struct label it = label_of(n);
    long most = it.lead ? it.lead + it.weight : -1;
    all.odd ^= it.odd;
    all.weight += it.weight;
    if (most > all.most) all.most = most;
    return all;
}

/* A heap rules if the others together weigh less than its lead. */
static int rules(struct sum all) { return all.most > all.weight; }

static int is_said_p(struct sum all) {
    if (all.weight == 0) return all.odd == 1;
    return all.odd == 0 && (all.weight % 2 == 1) == rules(all);
}

/* Calls `see` with what each option leaves of the heap n, until it answers 1. */
typedef int (*seeing)(void *, const int *, int);

static int each_option(int n, seeing see, void *data) {
    int left[3];
    for (int j = 0; j < digits; j++) {
        int rest = n - j;
        if (rest < 0) break;
        if (j && digit[j] & 1 && rest == 0 && see(data, left, 0)) return 1;
        if (j && digit[j] & 2 && rest > 0) {
            left[0] = rest;
            if (see(data, left, 1)) return 1;
        }
        if (digit[j] & 4)
            for (int a = 1; 2 * a <= rest; a++) {
                left[0] = a, left[1] = rest - a;
                if (see(data, left, 2)) return 1;
            }
        if (digit[j] & 8)
            for (int a = 1; 3 * a <= rest; a++)
                for (int b = a; a + 2 * b <= rest; b++) {
                    left[0] = a, left[1] = b, left[2] = rest - a - b;
                    if (see(data, left, 3)) return 1;
                }
    }
    return 0;
}

/* Positions that were searched, by their heaps from the largest on, each a byte, and a last 0. */
static struct place { char *heaps; int is_p; } *places;
static size_t room = 1 << 16, filled;

static size_t place_of(const char *heaps) {
    uint64_t hash = 1469598103934665603u;
    for (const char *byte = heaps; *byte; byte++) hash = (hash ^ (unsigned char)*byte) * 1099511628211u;
    size_t at = hash & (room - 1);
    while (places[at].heaps && strcmp(places[at].heaps, heaps)) at = (at + 1) & (room - 1);
    return at;
}

static void grow(void) {
    struct place *old = places;
    size_t before = room;
    room *= 2;
    if (!(places = calloc(room, sizeof *places))) fail("no memory");
    for (size_t i = 0; i < before; i++)
        if (old[i].heaps) places[place_of(old[i].heaps)] = old[i];
    free(old);
}

static int is_p(const char *heaps);

struct search { const char *heaps; int from, options; };

/* Whether the option that leaves so much of the heap at a place is a P-position. */
static int finds_p(void *data, const int *left, int count) {
    struct search *of = data;
    char next[HEAPS + 4];
    int parts = 0, taken = 0;
    of->options = 1;
    /* (both are sorted, the largest first; what is left of a heap rises) */
    for (int i = 0; of->heaps[i] || taken < count;) {
        if (i == of->from && of->heaps[i]) { i++; continue; }
        int largest = taken < count ? left[count - 1 - taken] : 0;
        if (of->heaps[i] >= largest) next[parts++] = of->heaps[i++];
        else next[parts++] = (char)largest, taken++;
    }
    next[parts] = 0;
    return is_p(next);
}

static int is_p(const char *heaps) {
    size_t at = place_of(heaps);
    if (places[at].heaps) return places[at].is_p;
    struct search of = {heaps, 0, 0};
    int is_n = 0;
    for (; heaps[of.from] && !is_n; of.from++)
        if (!of.from || heaps[of.from] != heaps[of.from - 1]) is_n = each_option(heaps[of.from], finds_p, &of);
    if (2 * ++filled > room) grow();
    at = place_of(heaps);
    if (!(places[at].heaps = strdup(heaps))) fail("no memory");
    /* (in misère play who has no move wins) */
    return places[at].is_p = of.options && !is_n;
}

static long searched, search_wrong;

static void search_all(char *heaps, int count, int largest, int total, struct sum all) {
    heaps[count] = 0;
    searched++;
    search_wrong += is_p(heaps) != is_said_p(all);
    for (int n = 1; n <= largest && n <= total; n++) {
        heaps[count] = (char)n;
        search_all(heaps, count + 1, n, total - n, with(all, n));
    }
}

static uint64_t seed;

static uint64_t draw(uint64_t below) {
    seed ^= seed << 13, seed ^= seed >> 7, seed ^= seed << 17;
    return (seed >> 11) % below;
}

struct look { struct sum others; int options; };

static int leads_to_p(void *data, const int *left, int count) {
    struct look *of = data;
    struct sum all = of->others;
    for (int i = 0; i < count; i++) all = with(all, left[i]);
    of->options = 1;
    return is_said_p(all);
}

/* Whether the rule of play holds at a position by what the text says. */
static int obeys(const int *heaps, int count) {
    struct sum all = nothing;
    int options = 0, is_n = 0;
    for (int i = 0; i < count; i++) all = with(all, heaps[i]);
    for (int i = 0; i < count && !is_n; i++) {
        struct look of = {nothing, 0};
        for (int k = 0; k < count; k++)
            if (k != i) of.others = with(of.others, heaps[k]);
        is_n = each_option(heaps[i], leads_to_p, &of);
        options |= of.options;
    }
    return is_said_p(all) == (options && !is_n);
}

static long drawn, drawn_wrong, ruled, near;

/* A position of a few heaps, each of a size drawn below a size that is drawn; every second time heaps are added to
   the first one while it rules, and the last may be one too many. */
static void look_at_one(int largest) {
    int heaps[FEW], count = 1 + (int)draw(7);
    for (int i = 0; i < count; i++) heaps[i] = 1 + (int)draw(1 + draw(largest));
    if (draw(2)) {
        struct sum all = nothing;
        heaps[0] = largest - (int)draw(1 + largest / 2);
        all = with(all, heaps[0]);
        for (count = 1; count < FEW && rules(all); count++) {
            int most = 1 + (int)(2 * (all.most - all.weight));
            heaps[count] = 1 + (int)draw(most < largest ? most : largest);
            all = with(all, heaps[count]);
        }
    }
    struct sum all = nothing;
    for (int i = 0; i < count; i++) all = with(all, heaps[i]);
    ruled += rules(all);
    near += all.most >= 0 && labs(all.most - all.weight) <= 4;
    drawn++;
    drawn_wrong += !obeys(heaps, count);
}

int main(int count, char **words) {
    char heaps[HEAPS + 4];
    if (count != 5) fail("four numbers are wanted");
    int total = atoi(words[1]), largest = atoi(words[3]);
    long positions = atol(words[2]);
    seed = strtoull(words[4], NULL, 10) * 2654435761u + 88172645463325252u;
    if (total > HEAPS || largest < 2) fail("too large");
    read_text();
    if (!(places = calloc(room, sizeof *places))) fail("no memory");
    search_all(heaps, 0, total, total, nothing);
    while (drawn < positions) look_at_one(largest);
    printf("%ld %ld %ld %ld %ld %ld\n", searched, search_wrong, drawn, drawn_wrong, ruled, near);
    return 0;
}
