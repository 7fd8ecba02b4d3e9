/* What the C tests share: counting checks, and buffers to lend. A check is one call on one buffer. Each call is made in a
 * buffer that has guard bytes before and behind it, under two patterns, and in a heap block of the lent length, where
 * valgrind sees any byte that is touched outside of it. */
#include "../../include/manilaply.h"

/* What is used of C: on Arm the kit has no headers to include. */
long write(int file, const void *bytes, size_t length);
void *malloc(size_t length);
void free(void *block);

/* ---- counting and telling */

static unsigned long checks, wrong;

static void say(const char *text)
{
    size_t length = 0;
    while (text[length] != 0)
        length++;
    if (write(1, text, length) < 0)
        wrong++;
}

static void say_number(unsigned long n)
{
    char digits[24];
    size_t at = sizeof digits;
    digits[--at] = 0;
    do {
        digits[--at] = (char)('0' + n % 10);
        n /= 10;
    } while (n != 0);
    say(digits + at);
}

/* One check is done; of those that fail the first ten are told. */
static void count(int good, const char *table, unsigned long row, uint32_t wanted, uint32_t got)
{
    checks++;
    if (good)
        return;
    wrong++;
    if (wrong > 10)
        return;
    say("  ");
    say(table);
    say(", row ");
    say_number(row);
    say(": wanted ");
    say_number(wanted);
    say(", got ");
    say_number(got);
    say(wanted == got ? ", bytes differ\n" : "\n");
}

/* ---- refusals */

/* The first of a set of refusals, bit i for order[i]; 0 of none. */
static inline uint32_t first_in(const uint32_t *order, size_t rows, unsigned set)
{
    size_t i;
    for (i = 0; i < rows; i++)
        if (set >> i & 1)
            return order[i];
    return 0;
}

/* ---- lent buffers */

/* No buffer that is lent is longer; a test that lends longer ones says so before it includes this. */
#ifndef MOST_LENT
#define MOST_LENT 24
#endif

enum { GUARD = 24, MOST = MOST_LENT, WHOLE = GUARD + MOST + GUARD, BLOCK = 2 };

static uint8_t guarded[WHOLE];

/* What byte i of a buffer holds before a call. The second pattern differs from the first in every bit. */
static uint8_t pattern(unsigned kind, size_t i)
{
    uint8_t p = (uint8_t)(i * 37 + 101);
    return kind % 2 == 0 ? p : (uint8_t)~p;
}

/* A buffer of length bytes: kinds 0 and 1 are guarded, kind 2 is a block of its own. */
static uint8_t *lend(unsigned kind, size_t length)
{
    uint8_t *out = kind == BLOCK ? malloc(length) : guarded + GUARD;
    size_t i;
    for (i = 0; kind != BLOCK && i < WHOLE; i++)
        guarded[i] = pattern(kind, i);
    for (i = 0; i < length; i++)
        out[i] = pattern(kind, GUARD + i);
    return out;
}

/* What a call reads, in a block of its own, where valgrind sees any byte that is touched outside of it. */
static inline uint8_t *copied(const uint8_t *bytes, size_t length)
{
    uint8_t *block = malloc(length);
    size_t i;
    for (i = 0; i < length; i++)
        block[i] = bytes[i];
    return block;
}

/* Is the block as it was? Gives it back. */
static inline int kept(uint8_t *block, const uint8_t *bytes, size_t length)
{
    int good = 1;
    size_t i;
    for (i = 0; i < length; i++)
        good &= block[i] == bytes[i];
    free(block);
    return good;
}

/* Has the buffer these bytes at its start, and all else as it was? Gives it back. */
static int holds(unsigned kind, uint8_t *out, size_t length, const uint8_t *bytes, size_t n)
{
    int good = 1;
    size_t i;
    for (i = 0; i < length; i++)
        good &= out[i] == (i < n ? bytes[i] : pattern(kind, GUARD + i));
    if (kind == BLOCK)
        free(out);
    else
        for (i = 0; i < WHOLE; i++)
            good &= (i >= GUARD && i < GUARD + length) || guarded[i] == pattern(kind, i);
    return good;
}

/* ---- judging and moving on every kind of buffer */

/* One judging on a buffer of out_len bytes, of each kind; n bytes are written if nothing is refused. */
static inline void judging(const char *table, unsigned long row, const uint8_t *recording, size_t length, uint64_t end,
                           size_t out_len, uint32_t wanted, const uint8_t *bytes, size_t n)
{
    unsigned kind;
    for (kind = 0; kind <= BLOCK; kind++) {
        uint8_t *out = lend(kind, out_len), *lent = copied(recording, length);
        uint32_t got = manilaply_judge(lent, length, end, out, out_len);
        int good = kept(lent, recording, length);
        good &= holds(kind, out, out_len, bytes, wanted == 0 ? n : 0);
        count(good && got == wanted, table, row, wanted, got);
    }
}

/* The same of a move. */
static inline void moving(const char *table, unsigned long row,
                          uint32_t move(const uint8_t *recording, size_t recording_len, uint8_t *out, size_t out_len),
                          const uint8_t *recording, size_t length, size_t out_len, uint32_t wanted, const uint8_t *bytes,
                          size_t n)
{
    unsigned kind;
    for (kind = 0; kind <= BLOCK; kind++) {
        uint8_t *out = lend(kind, out_len), *lent = copied(recording, length);
        uint32_t got = move(lent, length, out, out_len);
        int good = kept(lent, recording, length);
        good &= holds(kind, out, out_len, bytes, wanted == 0 ? n : 0);
        count(good && got == wanted, table, row, wanted, got);
    }
}

/* A verdict's 20 bytes of outcome, rule, record, partner, edge, needed, found. */
static inline void as_bytes(const uint64_t *fields, uint8_t *bytes)
{
    static const int WIDTHS[] = {1, 1, 3, 3, 6, 3, 3};
    int i, left;
    for (i = 0; i < 7; i++)
        for (left = WIDTHS[i]; left > 0; left--)
            *bytes++ = (uint8_t)(fields[i] >> (8 * (left - 1)));
}

/* ---- the end */

#define ROWS(table) (sizeof(table) / sizeof(table)[0])

/* Tells how many checks there were and how many failed, and answers with the status. */
static int told(const char *test)
{
    say(test);
    say(": ");
    say_number(checks);
    say(" checks, ");
    say_number(wrong);
    say(" wrong\n");
    return wrong != 0;
}
