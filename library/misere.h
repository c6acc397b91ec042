/* misere.h: certified misere quotients of octal and hexadecimal games.
 *
 * A certificate is a short text. A call that is given one checks it first, so nothing has to be kept,
 * and the checker's theorem holds for all that the call writes. For many questions misere_open checks
 * the bytes once, and what it opens keeps the theorem.
 *
 * Memory. The caller owns all that he passes; the library keeps no pointer after a call, and frees
 * all that it took (by malloc, realloc and free), but for what is opened until it is closed. Results
 * are written where `told` points. A call that does not answer MISERE_YES writes nothing there, but
 * for those that say otherwise.
 * Threads. There is no state: any number of calls may run at once, in any threads, if no two of them
 * are given the same misere_opened or misere_infinite. Not from a signal handler, nor in a child forked off a process
 * with threads.
 * Pointers. They are not null, also if the length is 0, and what is written overlaps nothing that is
 * given. Nothing checks that a length is that of the memory. */
#ifndef MISERE_H
#define MISERE_H

#include <stddef.h>
#include <stdint.h>

#ifdef __cplusplus
extern "C" {
#endif

/* The version of these calls, which misere_version answers. It rises if one of them changes. */
#define MISERE_VERSION 2

/* What the closure of a check may keep, if nobody asks for more or less. */
#define MISERE_LIMIT 100000

/* A status. 1 to 9 are the checker's refusals, each true of the bytes (LIMIT_MET: of the limit). */
enum {
    MISERE_YES = 0,
    MISERE_TEXT = 1,          /* the bytes spell no certificate */
    MISERE_LAW = 2,           /* the table is no commutative monoid with identity 0 */
    MISERE_WORD = 3,          /* a key has no smaller element, or another product than its element */
    MISERE_ORDER = 4,         /* the keys do not rise, or a product has a smaller key */
    MISERE_PERIOD = 5,        /* a smaller period serves, or the period serves from an earlier start */
    MISERE_APART = 6,         /* a separating element is not the least one */
    MISERE_OUTCOME = 7,       /* the rule of the code's game fails at a position */
    MISERE_LIMIT_MET = 8,     /* more different transition pairs than the limit */
    MISERE_MEMORY = 9,        /* memory was refused */
    MISERE_NOT_A_HEAP = 10,   /* a heap is not of 1 to 10^18 */
    MISERE_NOT_ENDS = 11,     /* the ends do not cut the heaps into as many positions as there is room for */
    MISERE_NOT_A_CODE = 12,   /* the text is no code */
    MISERE_GAVE_UP = 13,      /* no certificate was found */
    MISERE_NO_ROOM = 14,      /* the result is longer than the room for it */
    MISERE_NOT_IN_RANGE = 15, /* a bound of the search, or a choice, is out of its range */
    MISERE_NOT_DESCRIBED = 16, /* the quotient is not described within the bounds, or there is no such text of it */
    MISERE_NOT_OPEN = 17,     /* nothing is opened there */
    MISERE_BEYOND = 23,       /* the certificate does not speak of all the heaps */
    /* refusals of whole games and presentations, beside 1, 2, 7, 8 and 9 */
    MISERE_LEAVES = 31,       /* an option of a heap has a heap of which the certificate does not speak */
    MISERE_UNDECIDED = 33,    /* the rule was not seen to hold, and no position was found at which it fails */
    MISERE_FINITE = 34        /* the quotient is finite: `misere infinite` refuses one, no call does */
};

enum { MISERE_P = 0, MISERE_N = 1 };
enum { MISERE_ENDED = 0, MISERE_LOST = 1, MISERE_WINS = 2 };

typedef struct {
    uint64_t kind;   /* MISERE_ENDED, MISERE_LOST or MISERE_WINS */
    uint64_t heap;   /* the heap that the first winning move takes, else 0 */
    uint64_t first;  /* the heaps that it leaves, rising, and 0 for each that it does not */
    uint64_t second;
    uint64_t third;
} misere_move;

uint32_t misere_version(void);

/* Whether the bytes are an accepted certificate. */
uint32_t misere_check(const uint8_t *bytes, size_t length, uint32_t limit);

/* Who wins the position of these heaps under misere play, in *told: MISERE_P if the player who has
 * just moved does, MISERE_N if the next one does. */
uint32_t misere_outcome(const uint8_t *bytes, size_t length, uint32_t limit,
                        const uint64_t *heaps, size_t count, uint32_t *told);

/* The element of the quotient that is the position's. */
uint32_t misere_value(const uint8_t *bytes, size_t length, uint32_t limit,
                      const uint64_t *heaps, size_t count, uint32_t *told);

/* The first winning move in the position, if there is one. */
uint32_t misere_answer(const uint8_t *bytes, size_t length, uint32_t limit,
                       const uint64_t *heaps, size_t count, misere_move *told);

/* The outcome of each of many positions, by one check: of the heaps before ends[0], of those from
 * there to before ends[1], and so on. There is room for `room` outcomes, which is as many as ends.
 * All the heaps are looked at, also those after the last end. */
uint32_t misere_outcomes(const uint8_t *bytes, size_t length, uint32_t limit,
                         const uint64_t *heaps, size_t count, const uint64_t *ends, size_t positions,
                         uint32_t *told, size_t room);

/* The element of each of many positions, which are given in the same way. */
uint32_t misere_values(const uint8_t *bytes, size_t length, uint32_t limit,
                       const uint64_t *heaps, size_t count, const uint64_t *ends, size_t positions,
                       uint32_t *told, size_t room);

/* The first winning move in each of many positions, which are given in the same way. */
uint32_t misere_answers(const uint8_t *bytes, size_t length, uint32_t limit,
                        const uint64_t *heaps, size_t count, const uint64_t *ends, size_t positions,
                        misere_move *told, size_t room);

/* Checks the bytes as misere_check does. With MISERE_OUTCOME it writes to *count how many heaps the
 * position has at which the rule fails, and, if there is room for them, to told which. */
uint32_t misere_failure(const uint8_t *bytes, size_t length, uint32_t limit,
                        uint64_t *told, size_t room, uint64_t *count);

/* How far a search goes, if nobody asks for more or less. */
#define MISERE_ROUNDS 64
#define MISERE_HEAPS 24
#define MISERE_ELEMENTS 64

/* The most heaps that a search for the whole game looks at, as the certificate of an octal code can
 * need no more; and the most elements of a quotient. */
#define MISERE_MOST_HEAPS 8210
#define MISERE_MOST_ELEMENTS 4096

/* As many bytes are room for any certificate. */
#define MISERE_MOST (1u << 22)

/* Of which heaps a search is to find the quotient: of all, and it looks at those up to `heaps`, 2 to
 * 8210; of the heaps 1 to `heaps`, 1 to 1024; or of the most first heaps, whatever `heaps`. */
enum { MISERE_WHOLE = 0, MISERE_PART = 1, MISERE_FURTHEST = 2 };

/* Looks for a quotient of the game of a code, such as "0.33". It writes the bytes of its certificate,
 * which is accepted, and to *count how many they are; with MISERE_NO_ROOM *count alone. The limit is
 * 1 to 1000000, the rounds 1 to 1000, the order 2 to 4096, but of the whole game by at most
 * 64 heaps 2 to 256. */
uint32_t misere_solve(const uint8_t *code, size_t length, uint32_t limit, uint32_t rounds,
                      uint32_t aim, uint32_t heaps, uint32_t order, uint8_t *told, size_t room,
                      uint64_t *count);

/* As misere_solve. But with MISERE_GAVE_UP it writes how the search was given up, with the reason: the
 * lines of `misere solve CODE --why`, such as "gave up 2 Empty" and "no period 24 24", each with its
 * end, and to *count how many bytes they are. They need room too. */
uint32_t misere_solve_why(const uint8_t *code, size_t length, uint32_t limit, uint32_t rounds,
                          uint32_t aim, uint32_t heaps, uint32_t order, uint8_t *told, size_t room,
                          uint64_t *count);

/* The last heap up to which a search for an infinite quotient goes, if nobody asks for more or less. */
#define MISERE_INFINITE_HEAPS 64

/* Looks for a text of an infinite quotient of the game of a code, as `misere solve CODE --infinite` does: of
 * the whole game, or else a presentation of some of the heaps 1 to `heaps`. It writes the text, which is
 * accepted and which misere_infinite_open opens, and to *count how many bytes it has. With MISERE_GAVE_UP it
 * writes the line that says how the search was given up, such as "gave up: each part to heap 64 seems to have
 * a finite quotient", with its end. It needs room too; with MISERE_NO_ROOM it writes *count alone. The heaps
 * are 1 to 1024. Some searches take minutes. */
uint32_t misere_solve_infinite(const uint8_t *code, size_t length, uint32_t heaps, uint8_t *told, size_t room,
                               uint64_t *count);

/* As misere_solve_infinite, but no text of the whole game is looked for, as by `misere solve CODE --infinite
 * --presented`. */
uint32_t misere_solve_presented(const uint8_t *code, size_t length, uint32_t heaps, uint8_t *told, size_t room,
                                uint64_t *count);

/* Certifies a quotient of your own, in any numbering of its elements. The bytes are the text of its
 * table, as `misere certify` reads it. These are its lines, each with its end, and beside them what they
 * say:
 *     table 1
 *     code 0.33
 *     order 6          how many elements there are: they are 0 to 5
 *     start 1          the elements of the heaps repeat from this heap on; if none do, it is the first
 *                      heap that has none
 *     period 3         after how many heaps they repeat; if none do, 0
 *     heaps 4 3 5      the elements of the heaps 1, 2, .., to start + period - 1
 *     portion 1 4      those of the positions that are P, rising
 *     row 1 0 3 2 1 0  the products of 0 with 0, 1, 2, ..; then such a row for each further element
 *     end
 * It writes the bytes of the certificate, which is accepted, and to *count how many they are. With
 * MISERE_TEXT to MISERE_LIMIT_MET, and with MISERE_GAVE_UP, it writes the lines of `misere certify`, such
 * as "no 2 Commutes 1 2", each with its end: what is wrong with the table, of its elements as they are
 * numbered there. They need room too; with MISERE_NO_ROOM it writes *count alone. */
uint32_t misere_certify(const uint8_t *table, size_t length, uint32_t limit, uint8_t *told, size_t room,
                        uint64_t *count);

/* What is written of a quotient, and by which relations. */
enum {
    MISERE_DESCRIPTION = 0,
    MISERE_LATEX = 1,
    MISERE_RELATIONS = 2,
    MISERE_JSON = 3,
    MISERE_SINGULAR = 4,
    MISERE_GAP = 5
};
enum { MISERE_SHORT = 0, MISERE_BASIS = 1 };

/* Writes the description of the quotient that the bytes certify, plain, for LaTeX or in JSON, or its
 * relations as one word, or their ideal for Singular or GAP, and to *count how many bytes it has; with
 * MISERE_NO_ROOM *count alone. */
uint32_t misere_describe(const uint8_t *bytes, size_t length, uint32_t limit, uint32_t output,
                         uint32_t form, uint8_t *told, size_t room, uint64_t *count);

/* One owner of an opened quotient. It begins as MISERE_CLOSED, and only the calls write to it. It may
 * be passed to one call at a time, and may go on to another thread. For a second thread misere_share
 * makes a second owner: the certificate is kept once, and the last owner that is closed frees it.
 *
 * A call on what is closed answers MISERE_NOT_OPEN. Do not copy the struct. A copy is not an owner:
 * once the original was closed, or passed as `told` to misere_open or misere_share again, to use the
 * copy is to use freed memory. */
typedef struct {
    uint64_t full; /* 0 where nothing is opened */
    void *kept;
} misere_opened;

#define MISERE_CLOSED { 0, 0 }

/* Checks the bytes as misere_check does, and opens the quotient that they certify, in *told. What was
 * opened there is closed. The bytes are not needed any more. */
uint32_t misere_open(const uint8_t *bytes, size_t length, uint32_t limit, misere_opened *told);

/* Makes a second owner of the same quotient, in *told, which is another one. What was opened there is
 * closed. MISERE_MEMORY or MISERE_NOT_OPEN, if not MISERE_YES. */
uint32_t misere_share(misere_opened *opened, misere_opened *told);

/* Closes it: it is as MISERE_CLOSED afterwards. MISERE_NOT_OPEN if it was so before. */
uint32_t misere_close(misere_opened *opened);

/* As misere_outcome, misere_value and misere_answer of the bytes that were opened. They take no memory,
 * and answer MISERE_YES, MISERE_NOT_A_HEAP, MISERE_NOT_OPEN or MISERE_BEYOND. misere_opened_answer
 * puts the heaps in rising order in their own memory, if it answers MISERE_YES. */
uint32_t misere_opened_outcome(misere_opened *opened, const uint64_t *heaps, size_t count,
                               uint32_t *told);
uint32_t misere_opened_value(misere_opened *opened, const uint64_t *heaps, size_t count,
                             uint32_t *told);
uint32_t misere_opened_answer(misere_opened *opened, uint64_t *heaps, size_t count,
                              misere_move *told);

/* As misere_outcomes, misere_values and misere_answers of the bytes that were opened. The first two
 * take no memory. They answer MISERE_NOT_ENDS too, and the third one MISERE_MEMORY. */
uint32_t misere_opened_outcomes(misere_opened *opened, const uint64_t *heaps, size_t count,
                                const uint64_t *ends, size_t positions, uint32_t *told, size_t room);
uint32_t misere_opened_values(misere_opened *opened, const uint64_t *heaps, size_t count,
                              const uint64_t *ends, size_t positions, uint32_t *told, size_t room);
uint32_t misere_opened_answers(misere_opened *opened, const uint64_t *heaps, size_t count,
                               const uint64_t *ends, size_t positions, misere_move *told, size_t room);

/* As misere_describe of the bytes that were opened. */
uint32_t misere_opened_describe(misere_opened *opened, uint32_t output, uint32_t form, uint8_t *told,
                                size_t room, uint64_t *count);

/* Whether the bytes are an accepted text of one of two kinds. A text of a whole game begins with mqw 1: it
 * tells who wins each position of the game, whose misere quotient is infinite. A presentation by generators
 * and relations begins with mqp 1: it is the misere quotient of its heaps, which may be infinite or finite, as
 * misere_infinite_order tells. All other bytes are refused with MISERE_TEXT. */
uint32_t misere_check_infinite(const uint8_t *bytes, size_t length);

/* Checks the bytes as misere_check_infinite does. With MISERE_OUTCOME it writes to *count how many heaps
 * the position has at which the rule fails, and, if there is room for them, to told which. */
uint32_t misere_infinite_failure(const uint8_t *bytes, size_t length, uint64_t *told, size_t room,
                                 uint64_t *count);

/* One owner of what such bytes show. What is said of misere_opened holds of it, with its own calls. */
typedef struct {
    uint64_t full; /* 0 where nothing is opened */
    void *kept;
} misere_infinite;

#define MISERE_INFINITE_CLOSED { 0, 0 }

/* As misere_open, misere_share and misere_close. */
uint32_t misere_infinite_open(const uint8_t *bytes, size_t length, misere_infinite *told);
uint32_t misere_infinite_share(misere_infinite *opened, misere_infinite *told);
uint32_t misere_infinite_close(misere_infinite *opened);

/* Of which heaps it speaks, in *told: 0 if of those of every size, and else the last one. Some may be
 * left out. */
uint32_t misere_infinite_kind(misere_infinite *opened, uint64_t *told);

/* How many elements the quotient has, in *told, or 0 if it is infinite. */
uint32_t misere_infinite_order(misere_infinite *opened, uint64_t *told);

/* Writes the code of the game, such as "0.26", and to *count how many bytes it has; with MISERE_NO_ROOM
 * *count alone. */
uint32_t misere_infinite_code(misere_infinite *opened, uint8_t *told, size_t room, uint64_t *count);

/* As misere_opened_outcome and misere_opened_answer. MISERE_BEYOND is answered for a heap above the last
 * one, and for one that the certificate leaves out. By a text of a whole game the answer is the first
 * winning move of those that leave at most one heap from its start on, and by a presentation of those that
 * leave at most one heap above the last of its list; if any wins, one of these does. */
uint32_t misere_infinite_outcome(misere_infinite *opened, const uint64_t *heaps, size_t count,
                                 uint32_t *told);
uint32_t misere_infinite_answer(misere_infinite *opened, uint64_t *heaps, size_t count,
                                misere_move *told);

/* As misere_opened_outcomes and misere_opened_answers. */
uint32_t misere_infinite_outcomes(misere_infinite *opened, const uint64_t *heaps, size_t count,
                                  const uint64_t *ends, size_t positions, uint32_t *told, size_t room);
uint32_t misere_infinite_answers(misere_infinite *opened, const uint64_t *heaps, size_t count,
                                 const uint64_t *ends, size_t positions, misere_move *told, size_t room);

/* Writes the description of what is opened, plain, for LaTeX or in JSON (MISERE_DESCRIPTION,
 * MISERE_LATEX, MISERE_JSON), and to *count how many bytes it has; with MISERE_NO_ROOM *count alone.
 * A text of a whole game, mqw, has none: MISERE_NOT_DESCRIBED. */
uint32_t misere_infinite_describe(misere_infinite *opened, uint32_t output, uint8_t *told, size_t room,
                                  uint64_t *count);

/* Writes the element of the position by a presentation that is opened, as a word in its letters, such as "ab^2"
 * or "1", and to *count how many bytes it has; with MISERE_NO_ROOM *count alone. Two positions are
 * indistinguishable exactly if their words are the same. MISERE_NOT_A_HEAP and MISERE_BEYOND as above, and
 * MISERE_NOT_DESCRIBED if what is opened is no presentation. */
uint32_t misere_infinite_value(misere_infinite *opened, const uint64_t *heaps, size_t count, uint8_t *told,
                               size_t room, uint64_t *length);

#ifdef __cplusplus
}
#endif
#endif
