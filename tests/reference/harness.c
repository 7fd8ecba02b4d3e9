/* Answers requests over pipes, one after the other, until standard input ends. tests/reference/run builds it against
 * the archive and the reference talks to it.
 *
 * A request is eight numbers of eight bytes, the lowest byte first, and data:
 *     the function: 1 judge, 2 register, 3 burst, 4 widen, 5 narrow
 *     the length of the data: the recording, the header, nothing, the recording, the recording
 *     four numbers: end; number and code; length, start, type, direction; nothing; nothing
 *     the lent length
 *     the fill: byte i of out is i * 37 + fill before the call, and the guard bytes go on in the same way
 * An answer is two such numbers, what was returned and how many bytes were altered that the function may not write (guard
 * bytes, and 1 if the data is altered), and then the lent bytes.
 *
 * Called with a word, it leaves the guard bytes away: each buffer is then a heap block of just its length, for valgrind. */
#include "../../include/manilaply.h"

/* What is used of C: on Arm the kit has no headers to include. */
long read(int file, void *bytes, size_t length);
long write(int file, const void *bytes, size_t length);
void *malloc(size_t length);
void free(void *block);

typedef unsigned long long number;

enum { JUDGE = 1, REGISTER = 2, BURST = 3, WIDEN = 4, NARROW = 5, NUMBERS = 8, WORD = 8, GUARD = 64 };

static size_t guard = GUARD;

/* ---- pipes */

static int take(uint8_t *bytes, size_t length)
{
    size_t at = 0;
    while (at < length) {
        long n = read(0, bytes + at, length - at);
        if (n <= 0)
            return 0;
        at += (size_t)n;
    }
    return 1;
}

static int give(const uint8_t *bytes, size_t length)
{
    size_t at = 0;
    while (at < length) {
        long n = write(1, bytes + at, length - at);
        if (n <= 0)
            return 0;
        at += (size_t)n;
    }
    return 1;
}

static int take_numbers(number *numbers)
{
    uint8_t bytes[NUMBERS * WORD];
    size_t i;
    if (!take(bytes, sizeof bytes))
        return 0;
    for (i = 0; i < NUMBERS; i++)
        numbers[i] = 0;
    for (i = 0; i < sizeof bytes; i++)
        numbers[i / WORD] |= (number)bytes[i] << (8 * (i % WORD));
    return 1;
}

static int give_number(number n)
{
    uint8_t bytes[WORD];
    size_t i;
    for (i = 0; i < WORD; i++)
        bytes[i] = (uint8_t)(n >> (8 * i));
    return give(bytes, WORD);
}

/* ---- buffers */

static uint8_t filled(size_t i, number fill)
{
    return (uint8_t)(i * 37 + fill);
}

/* Counted from the buffer's start, so that those before it wrap. */
static uint8_t *lend(size_t length, number fill)
{
    uint8_t *whole = malloc(guard + length + guard);
    size_t i;
    for (i = 0; i < guard + length + guard; i++)
        whole[i] = filled(i - guard, fill);
    return whole + guard;
}

static number altered_guards(const uint8_t *buffer, size_t length, number fill)
{
    const uint8_t *whole = buffer - guard;
    number altered = 0;
    size_t i;
    for (i = 0; i < guard; i++) {
        altered += whole[i] != filled(i - guard, fill);
        altered += buffer[length + i] != filled(length + i, fill);
    }
    return altered;
}

static number sum_of(const uint8_t *bytes, size_t length)
{
    number sum = 14695981039346656037ull;
    size_t i;
    for (i = 0; i < length; i++)
        sum = (sum ^ bytes[i]) * 1099511628211ull;
    return sum;
}

/* ---- calls */

static uint32_t call(const number *n, const uint8_t *data, uint8_t *out)
{
    size_t length = (size_t)n[1], lent = (size_t)n[6];
    if (n[0] == JUDGE)
        return manilaply_judge(data, length, n[2], out, lent);
    if (n[0] == REGISTER)
        return manilaply_register(data, length, (uint32_t)n[2], (uint16_t)n[3], out, lent);
    if (n[0] == WIDEN)
        return manilaply_widen(data, length, out, lent);
    if (n[0] == NARROW)
        return manilaply_narrow(data, length, out, lent);
    return manilaply_burst((uint32_t)n[2], (uint32_t)n[3], (uint32_t)n[4], (uint32_t)n[5], out, lent);
}

static int answered(void)
{
    number n[NUMBERS], sum, altered;
    size_t length, lent;
    uint8_t *data, *out;
    uint32_t code;
    int good;
    if (!take_numbers(n))
        return 0;
    length = (size_t)n[1];
    lent = (size_t)n[6];
    data = lend(length, n[7]);
    out = lend(lent, n[7]);
    good = take(data, length);
    if (good) {
        sum = sum_of(data, length);
        code = call(n, data, out);
        altered = altered_guards(data, length, n[7]) + altered_guards(out, lent, n[7]);
        altered += sum != sum_of(data, length);
        good = give_number(code) && give_number(altered) && give(out, lent);
    }
    free(data - guard);
    free(out - guard);
    return good;
}

int main(int count, char **words)
{
    (void)words;
    if (count > 1)
        guard = 0;
    while (answered()) {
    }
    return 0;
}
