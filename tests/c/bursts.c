/* Burst order from C, on good and bad input: each answer and each byte of the lent buffers is held to the tables below,
 * which are written from 01. */
#include "checks.h"

static const uint8_t ZEROS[] = {0, 0, 0, 0, 0, 0, 0, 0};

/* The words by start 0 to 7. */
static const uint8_t EIGHT_SEQUENTIAL[8][8] = {
    {0, 1, 2, 3, 4, 5, 6, 7}, {1, 2, 3, 0, 5, 6, 7, 4}, {2, 3, 0, 1, 6, 7, 4, 5}, {3, 0, 1, 2, 7, 4, 5, 6},
    {4, 5, 6, 7, 0, 1, 2, 3}, {5, 6, 7, 4, 1, 2, 3, 0}, {6, 7, 4, 5, 2, 3, 0, 1}, {7, 4, 5, 6, 3, 0, 1, 2},
};
static const uint8_t EIGHT_INTERLEAVE[8][8] = {
    {0, 1, 2, 3, 4, 5, 6, 7}, {1, 0, 3, 2, 5, 4, 7, 6}, {2, 3, 0, 1, 6, 7, 4, 5}, {3, 2, 1, 0, 7, 6, 5, 4},
    {4, 5, 6, 7, 0, 1, 2, 3}, {5, 4, 7, 6, 1, 0, 3, 2}, {6, 7, 4, 5, 2, 3, 0, 1}, {7, 6, 5, 4, 3, 2, 1, 0},
};
static const uint8_t FOUR_SEQUENTIAL[8][4] = {
    {0, 1, 2, 3}, {1, 2, 3, 0}, {2, 3, 0, 1}, {3, 0, 1, 2},
    {4, 5, 6, 7}, {5, 6, 7, 4}, {6, 7, 4, 5}, {7, 4, 5, 6},
};
static const uint8_t FOUR_INTERLEAVE[8][4] = {
    {0, 1, 2, 3}, {1, 0, 3, 2}, {2, 3, 0, 1}, {3, 2, 1, 0},
    {4, 5, 6, 7}, {5, 4, 7, 6}, {6, 7, 4, 5}, {7, 6, 5, 4},
};
static const uint8_t EIGHT_WRITE[8] = {0, 1, 2, 3, 4, 5, 6, 7};
static const uint8_t FOUR_WRITE[8][4] = {
    {0, 1, 2, 3}, {0, 1, 2, 3}, {0, 1, 2, 3}, {0, 1, 2, 3},
    {4, 5, 6, 7}, {4, 5, 6, 7}, {4, 5, 6, 7}, {4, 5, 6, 7},
};

static const uint8_t *burst_words(uint32_t length, uint32_t start, int interleave, int writes)
{
    if (length == 8)
        return writes ? EIGHT_WRITE : interleave ? EIGHT_INTERLEAVE[start] : EIGHT_SEQUENTIAL[start];
    return writes ? FOUR_WRITE[start] : interleave ? FOUR_INTERLEAVE[start] : FOUR_SEQUENTIAL[start];
}

/* One burst on a buffer of out_len bytes, of each kind. */
static void burst(const char *table, unsigned long row, uint32_t length, uint32_t start, uint32_t type,
                  uint32_t direction, size_t out_len, uint32_t wanted, const uint8_t *words)
{
    unsigned kind;
    for (kind = 0; kind <= BLOCK; kind++) {
        uint8_t *out = lend(kind, out_len);
        uint32_t got = manilaply_burst(length, start, type, direction, out, out_len);
        int good = holds(kind, out, out_len, words, wanted == 0 ? length : 0);
        count(good && got == wanted, table, row, wanted, got);
    }
}

/* The first of these is 0, and any other number is the other. */
static const uint32_t EITHER[] = {0, 1, 2, 3, 256, 65536, 0x80000000, 0xFFFFFFFF};

static void bursts_by_table(void)
{
    unsigned long type, direction;
    uint32_t length, start;
    size_t out_len;
    for (length = 4; length <= 8; length += 4)
        for (start = 0; start < 8; start++)
            for (type = 0; type < ROWS(EITHER); type++)
                for (direction = 0; direction < ROWS(EITHER); direction++)
                    burst("burst", start, length, start, EITHER[type], EITHER[direction], length, 0,
                          burst_words(length, start, type != 0, direction != 0));
    for (length = 4; length <= 8; length += 4)
        for (start = 0; start < 8; start++)
            for (type = 0; type < 2; type++)
                for (direction = 0; direction < 2; direction++)
                    for (out_len = 0; out_len <= MOST; out_len++)
                        burst("burst by room", out_len, length, start, (uint32_t)type, (uint32_t)direction,
                              out_len, out_len < length ? 9 : 0,
                              burst_words(length, start, type != 0, direction != 0));
}

static const uint32_t LENGTHS[] = {0, 1, 2, 3, 5, 6, 7, 9, 12, 16, 260, 264, 65540, 0x80000008, 0xFFFFFFFF};
static const uint32_t STARTS[] = {8, 9, 15, 16, 255, 256, 263, 65536, 0x80000007, 0xFFFFFFFF};

/* 10 by the length, by the start, by both; each also where the buffer is too short, which is 9. */
static void bursts_refused(void)
{
    unsigned long i, j;
    size_t out_len;
    for (out_len = 0; out_len <= 9; out_len++) {
        for (i = 0; i < ROWS(LENGTHS); i++)
            for (j = 0; j < 8; j++)
                burst("burst length", i, LENGTHS[i], (uint32_t)j, 0, 1, out_len, 10, ZEROS);
        for (i = 0; i < ROWS(STARTS); i++)
            for (j = 4; j <= 8; j += 4)
                burst("burst start", i, (uint32_t)j, STARTS[i], 1, 0, out_len, 10, ZEROS);
        for (i = 0; i < ROWS(LENGTHS); i++)
            for (j = 0; j < ROWS(STARTS); j++)
                burst("burst length and start", i, LENGTHS[i], STARTS[j], 1, 1, out_len, 10, ZEROS);
    }
}

/* A null pointer with length 0. */
static void bursts_of_null(void)
{
    uint32_t got = manilaply_burst(8, 0, 0, 0, 0, 0);
    count(got == 9, "burst to null", 8, 9, got);
    got = manilaply_burst(4, 7, 1, 1, 0, 0);
    count(got == 9, "burst to null", 4, 9, got);
    got = manilaply_burst(5, 0, 0, 0, 0, 0);
    count(got == 10, "burst to null", 5, 10, got);
    got = manilaply_burst(8, 8, 0, 0, 0, 0);
    count(got == 10, "burst to null, start 8", 8, 10, got);
}

int main(void)
{
    bursts_by_table();
    bursts_refused();
    bursts_of_null();
    return told("bursts");
}
