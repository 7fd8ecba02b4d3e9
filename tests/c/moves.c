/* Moving a recording between the editions from C: each answer and each byte of the lent buffers is held to the tables
 * below, which are written from Q-7. */
#define MOST_LENT 48
#include "checks.h"

enum { SIX = 6, EIGHT = 8, LIMIT = 1048576 };

#define OLD 0x14, 0x05, 0xDC, 0, 0, 0
#define NEW 0x24, 0x05, 0xDC, 0, 0, 0
/* Q-7's record; one with every bit set but the step's; one with none. */
#define OLD_RECORDS 0, 0, 0x0C, 0x9B, 0x01, 0x23, 0xFF, 0xFF, 0xFF, 0xFF, 0xFF, 0xFF, 0, 0, 1, 0, 0, 0
#define NEW_RECORDS \
    0, 0, 0x0C, 0xD3, 0x60, 0x24, 0x60, 0, 0xFF, 0xFF, 0xFF, 0xF7, 0xFF, 0xFF, 0xE0, 0, 0, 0, 1, 0x90, 0, 0, 0, 0

static const uint8_t OLD_EMPTY[] = {OLD}, NEW_EMPTY[] = {NEW};
static const uint8_t OLD_THREE[] = {OLD, OLD_RECORDS}, NEW_THREE[] = {NEW, NEW_RECORDS};

/* Both ways on every lent length; later bytes stay, and a buffer that is too short is not touched. */
static void there_and_back(const char *table, const uint8_t *old, size_t old_len, const uint8_t *new_, size_t new_len)
{
    size_t out_len;
    for (out_len = 0; out_len <= MOST; out_len++) {
        moving(table, out_len, manilaply_widen, old, old_len, out_len, out_len < new_len ? 9 : 0, new_, new_len);
        moving(table, out_len, manilaply_narrow, new_, new_len, out_len, out_len < old_len ? 9 : 0, old, old_len);
    }
}

/* RESET, the second CS and ODT are 1, 1 and 0 in every record, and the 13 bits are 0. */
static void each_bit(void)
{
    uint8_t recording[sizeof NEW_THREE];
    size_t i, record;
    unsigned bit;
    for (record = 0; record < 3; record++)
        for (bit = 0; bit < 40; bit++) {
            uint32_t wanted = bit < 13 ? 14 : bit == 35 || bit == 36 || bit == 39 ? 13 : 0;
            for (i = 0; i < sizeof recording; i++)
                recording[i] = NEW_THREE[i];
            recording[SIX + EIGHT * record + 7 - bit / 8] ^= (uint8_t)(1 << bit % 8);
            if (wanted != 0)
                moving("each bit", bit, manilaply_narrow, recording, sizeof recording, MOST, wanted, recording, 0);
        }
}

/* In the order of the checks. Widening knows neither 14 nor 13. */
static const uint32_t ORDER[] = {1, 2, 3, 4, 5, 7, 6, 14, 13, 9};
enum { ONE = 1, TWO = 2, THREE = 4, FOUR = 8, FIVE = 16, SEVEN = 32, SIXTH = 64, FOURTEEN = 128, THIRTEEN = 256, NINE = 512, SETS = 1024 };

/* A recording of NOPs in which just the refusals of the set hold, bit i for ORDER[i]: 13 in the first record, 14 in the
 * second, 6 in the last. */
static size_t spoilt(unsigned set, int wide, uint8_t *recording)
{
    static const uint8_t NOP[] = {0, 0, 1, 0xB8, 0, 0}, WIDE_NOP[] = {0, 0, 1, 0xD7, 0, 0, 0, 0};
    size_t size = wide ? EIGHT : SIX, records = set & SEVEN ? LIMIT + 1 : 3, whole = SIX + records * size, i;
    for (i = 0; i < whole + size; i++)
        recording[i] = i < SIX ? (wide ? NEW_EMPTY : OLD_EMPTY)[i] : (wide ? WIDE_NOP : NOP)[(i - SIX) % size];
    if (set & TWO)
        recording[0] = wide ? 0x14 : 0x24;
    if (set & THREE)
        recording[1] |= 0x40;
    if (set & FOUR)
        recording[2] = 0xDB;
    if (set & THIRTEEN)
        recording[SIX + 3] ^= 0x10;
    if (set & FOURTEEN)
        recording[SIX + size + 6] |= 0x10;
    if (set & SIXTH)
        recording[whole - size + 2] = 0;
    return set & ONE ? 4 : whole + (set & FIVE ? size - 2 : 0);
}

static void refused_by(unsigned set, int wide, uint8_t *recording)
{
    uint32_t wanted = first_in(ORDER, ROWS(ORDER), set);
    size_t length = spoilt(set, wide, recording);
    size_t room = wide ? SIX + 3 * SIX : SIX + 3 * EIGHT;
    if (wanted != 0)
        moving(wide ? "narrow, refusals at once" : "widen, refusals at once", set, wide ? manilaply_narrow : manilaply_widen,
               recording, length, set & NINE ? (set & ONE ? 5 : room - 1) : room, wanted, recording, 0);
}

/* With 7 only once each with one other: the recording is long, and what is lent is then too short, which is asked last. */
static void moves_refused(void)
{
    uint8_t *recording = malloc((size_t)EIGHT * (LIMIT + 3));
    unsigned set;
    int wide;
    for (wide = 0; wide < 2; wide++)
        for (set = 0; set < SETS; set++)
            if (((set & SEVEN) == 0 || ((set & ONE) == 0 && ((set ^ SEVEN) & ((set ^ SEVEN) - 1)) == 0)) &&
                (wide || (set & (FOURTEEN | THIRTEEN)) == 0))
                refused_by(set, wide, recording);
    free(recording);
}

/* The most records, there and back, in blocks of just their lengths. */
static void at_the_limit(void)
{
    size_t old_len = SIX + (size_t)SIX * LIMIT, new_len = SIX + (size_t)EIGHT * LIMIT, i;
    uint8_t *old = malloc(old_len), *new_ = malloc(new_len), *back = malloc(old_len);
    uint32_t got;
    int good = 1;
    for (i = 0; i < old_len; i++)
        old[i] = i < SIX ? OLD_EMPTY[i] : (uint8_t)(i % SIX == 2 ? 1 : i * 37 >> 3);
    got = manilaply_widen(old, old_len, new_, new_len - 1);
    count(got == 9, "the most records, a byte too few", 0, 9, got);
    got = manilaply_widen(old, old_len, new_, new_len);
    count(got == 0, "the most records, widened", 0, 0, got);
    got = manilaply_narrow(new_, new_len, back, old_len);
    for (i = 0; i < old_len; i++)
        good &= back[i] == old[i];
    count(good && got == 0, "the most records, back", 0, 0, got);
    free(old);
    free(new_);
    free(back);
}

/* A null pointer with length 0, for the recording, for out, for both. */
static void moves_of_null(void)
{
    uint8_t out[SIX];
    uint32_t got = manilaply_widen(0, 0, out, SIX);
    count(got == 1, "null recording", 0, 1, got);
    got = manilaply_narrow(0, 0, out, SIX);
    count(got == 1, "null recording", 1, 1, got);
    got = manilaply_widen(OLD_EMPTY, SIX, 0, 0);
    count(got == 9, "null out", 0, 9, got);
    got = manilaply_narrow(NEW_EMPTY, SIX, 0, 0);
    count(got == 9, "null out", 1, 9, got);
    got = manilaply_narrow(0, 0, 0, 0);
    count(got == 1, "null recording and out", 0, 1, got);
}

int main(void)
{
    there_and_back("no record", OLD_EMPTY, sizeof OLD_EMPTY, NEW_EMPTY, sizeof NEW_EMPTY);
    there_and_back("three records", OLD_THREE, sizeof OLD_THREE, NEW_THREE, sizeof NEW_THREE);
    each_bit();
    moves_refused();
    at_the_limit();
    moves_of_null();
    return told("moves");
}
