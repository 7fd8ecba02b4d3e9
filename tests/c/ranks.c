/* Judging a whole recording of edition 2 from C: each answer and each byte of the lent buffers is held to the tables below,
 * which are written from Q-7. */
#define MOST_LENT 44
#include "checks.h"

enum { ONE = 20, VERDICTS = 40, SIX = 6, EIGHT = 8, LIMIT = 1048576 };

#define HEADER 0x24, 0x05, 0xDC, 0, 0, 0
#define FIRST 0xD0  /* RESET and CKE high, the first rank selected; with RAS, CAS and WE */
#define SECOND 0xE0 /* the second */
#define BOTH 0xC0
#define NONE 0xF0
/* MR2, MR3, MR1, MR0 with DLL reset, an ACT of bank 3, a RD, all to these ranks, and a PRE behind so many clocks. */
#define P8_OF(to, step) \
    0, 0, 1, to, 0x40, 0x02, 0, 0, 0, 0, 4, to, 0x60, 0, 0, 0, 0, 0, 4, to, 0x20, 0, 0, 0, 0, 0, 4, to, 0x01, 0x6A, 0, 0, \
        0, 0, 12, to | 3, 0x60, 0x24, 0x60, 0, 0, 1, 0xF4, to | 5, 0x60, 0, 0, 0, 0, 0, step, to | 2, 0x60, 0, 0, 0

static const uint8_t P8_FIRST[] = {HEADER, P8_OF(FIRST, 4)};
static const uint8_t P8_SECOND[] = {HEADER, P8_OF(SECOND, 4)};
static const uint8_t P8_BOTH[] = {HEADER, P8_OF(BOTH, 4)};
static const uint8_t P9_BOTH[] = {HEADER, P8_OF(BOTH, 5)};
static const uint8_t P8_NONE[] = {HEADER, P8_OF(NONE, 4)};
/* The same with RESET low and ODT high, which are not judged. */
static const uint8_t UNJUDGED[] = {HEADER, P8_OF((FIRST ^ 0x88), 4)};
static const uint8_t EMPTY[] = {HEADER};
/* An SRE of the first rank is a power-down entry of the second; the exit at edge 5 or 6, alone or with a REF's pins. */
#define ASLEEP 0, 0, 1, 0x91, 0, 0, 0, 0
static const uint8_t SOON[] = {HEADER, ASLEEP, 0, 0, 4, 0xF7, 0, 0, 0, 0};
static const uint8_t LATER[] = {HEADER, ASLEEP, 0, 0, 5, 0xF7, 0, 0, 0, 0};
static const uint8_t FORBIDDEN[] = {HEADER, ASLEEP, 0, 0, 5, 0xD1, 0, 0, 0, 0};
static const uint8_t AFTER[] = {HEADER, ASLEEP, 0, 0, 5, 0xF7, 0, 0, 0, 0, 0, 0, 3, 0xC2, 0, 0, 0, 0};
/* A REF of the second rank at edge 1: the first owes nine refreshes at 46800, the second's gap is too long at 46802. */
static const uint8_t REFRESHED[] = {HEADER, 0, 0, 1, SECOND | 1, 0, 0, 0, 0};
static const uint8_t BIT[] = {HEADER, 0, 0, 1, 0xF7, 0, 0, 0, 1};
static const uint8_t HIGH_BIT[] = {HEADER, 0, 0, 1, 0xF7, 0, 0, 0x10, 0};
static const uint8_t LOWEST_A[] = {HEADER, 0, 0, 1, 0xF7, 0, 0, 0x20, 0};

static const struct {
    const uint8_t *recording;
    size_t length;
    uint64_t end;
    uint32_t wanted;
    uint64_t first[7], second[7];
} CASES[] = {
    {P8_FIRST, sizeof P8_FIRST, 529, 0, {1, 10, 7, 6, 529, 5, 4}, {0, 0, 7, 0, 529, 0, 0}},
    {P8_SECOND, sizeof P8_SECOND, 529, 0, {0, 0, 7, 0, 529, 0, 0}, {1, 10, 7, 6, 529, 5, 4}},
    {P8_BOTH, sizeof P8_BOTH, 600, 0, {1, 10, 7, 6, 529, 5, 4}, {1, 10, 7, 6, 529, 5, 4}},
    {P9_BOTH, sizeof P9_BOTH, 530, 0, {0, 0, 7, 0, 530, 0, 0}, {0, 0, 7, 0, 530, 0, 0}},
    {P8_NONE, sizeof P8_NONE, 529, 0, {0, 0, 7, 0, 529, 0, 0}, {0, 0, 7, 0, 529, 0, 0}},
    {UNJUDGED, sizeof UNJUDGED, 529, 0, {1, 10, 7, 6, 529, 5, 4}, {0, 0, 7, 0, 529, 0, 0}},
    {P8_FIRST, sizeof P8_FIRST, 528, 8, {0}, {0}},
    {EMPTY, sizeof EMPTY, 46799, 0, {0, 0, 0, 0, 46799, 0, 0}, {0, 0, 0, 0, 46799, 0, 0}},
    {EMPTY, sizeof EMPTY, 46800, 0, {1, 25, 0, 0, 46800, 8, 9}, {1, 25, 0, 0, 46800, 8, 9}},
    {EMPTY, sizeof EMPTY, ((uint64_t)1 << 44) + 1, 8, {0}, {0}},
    {SOON, sizeof SOON, 5, 0, {1, 22, 2, 1, 5, 5, 4}, {0, 0, 2, 0, 5, 0, 0}},
    {LATER, sizeof LATER, 6, 0, {0, 0, 2, 0, 6, 0, 0}, {0, 0, 2, 0, 6, 0, 0}},
    {FORBIDDEN, sizeof FORBIDDEN, 6, 0, {1, 1, 2, 0, 6, 0, 0}, {0, 0, 2, 0, 6, 0, 0}},
    {AFTER, sizeof AFTER, 9, 0, {1, 21, 3, 2, 9, 80, 3}, {1, 29, 3, 2, 9, 4, 3}},
    {REFRESHED, sizeof REFRESHED, 46799, 0, {0, 0, 1, 0, 46799, 0, 0}, {0, 0, 1, 0, 46799, 0, 0}},
    {REFRESHED, sizeof REFRESHED, 46800, 0, {1, 25, 0, 0, 46800, 8, 9}, {0, 0, 1, 0, 46800, 0, 0}},
    {REFRESHED, sizeof REFRESHED, 46802, 0, {1, 25, 0, 0, 46800, 8, 9}, {1, 31, 0, 1, 46802, 46800, 46801}},
    {BIT, sizeof BIT, 1, 14, {0}, {0}},
    {BIT, sizeof BIT, 0, 14, {0}, {0}},
    {HIGH_BIT, sizeof HIGH_BIT, 1, 14, {0}, {0}},
    {LOWEST_A, sizeof LOWEST_A, 1, 0, {0, 0, 1, 0, 1, 0, 0}, {0, 0, 1, 0, 1, 0, 0}},
    {P8_FIRST, 5, 0, 1, {0}, {0}},
    {P8_FIRST, 1, 0, 1, {0}, {0}},
    {P8_FIRST, 7, 0, 5, {0}, {0}},
    {P8_FIRST, 12, 0, 5, {0}, {0}},
    {P8_FIRST, sizeof P8_FIRST - 1, 529, 5, {0}, {0}},
};

static void ranks_by_table(void)
{
    unsigned long row;
    size_t out_len;
    for (row = 0; row < ROWS(CASES); row++) {
        uint8_t verdicts[VERDICTS];
        as_bytes(CASES[row].first, verdicts);
        as_bytes(CASES[row].second, verdicts + ONE);
        for (out_len = 0; out_len <= MOST; out_len++)
            judging("ranks", row, CASES[row].recording, CASES[row].length, CASES[row].end, out_len,
                    out_len < VERDICTS ? 9 : CASES[row].wanted, verdicts, VERDICTS);
    }
}

/* Of a recording of one byte the first four bits decide how much is asked for. */
static void room_by_the_first_bits(void)
{
    unsigned edition;
    size_t out_len;
    for (edition = 0; edition < 16; edition++) {
        uint8_t first = (uint8_t)(edition << 4 | 4);
        for (out_len = 0; out_len <= MOST; out_len++)
            judging("one byte", edition, &first, 1, 0, out_len, out_len < (edition == 2 ? VERDICTS : ONE) ? 9 : 1, &first, 0);
    }
}

/* In the order of the checks; 2 cannot hold. */
static const uint32_t ORDER[] = {9, 1, 3, 4, 5, 7, 6, 14, 8};
enum { NINE = 1, SHORT = 2, THREE = 4, FOUR = 8, FIVE = 16, SEVEN = 32, SIXTH = 64, FOURTEEN = 128, EIGHTH = 256, SETS = 512 };

/* A recording of NOPs in which just the refusals of the set hold, bit i for ORDER[i]; 14 in a record before that of 6. */
static void refused_by(unsigned set, uint8_t *recording)
{
    static const uint8_t NOP[EIGHT] = {0, 0, 1, 0xC7, 0, 0, 0, 0}, GOOD[SIX] = {HEADER};
    const uint64_t fields[7] = {0, 0, 3, 0, 3, 0, 0};
    uint8_t clean[VERDICTS];
    size_t records = set & SEVEN ? LIMIT + 1 : 3, whole = SIX + records * EIGHT, i;
    size_t length = set & SHORT ? 4 : whole + (set & FIVE ? 6 : 0);
    for (i = 0; i < whole + 7; i++)
        recording[i] = i < SIX ? GOOD[i] : NOP[(i - SIX) % EIGHT];
    if (set & THREE)
        recording[1] |= 0x40;
    if (set & FOUR)
        recording[2] = 0xDB;
    if (set & FOURTEEN)
        recording[SIX + 7] = 1;
    if (set & SIXTH)
        recording[whole - EIGHT + 2] = 0;
    as_bytes(fields, clean);
    as_bytes(fields, clean + ONE);
    judging("refusals at once", set, recording, length, set & EIGHTH ? ~(uint64_t)0 : set & SEVEN ? 2 * LIMIT : 3,
            set & NINE ? VERDICTS - 1 : VERDICTS, first_in(ORDER, ROWS(ORDER), set), clean, VERDICTS);
}

/* With 7 only once each with one other: the recording is long. */
static void ranks_refused(void)
{
    uint8_t *recording = malloc((size_t)EIGHT * (LIMIT + 3));
    unsigned set;
    for (set = 0; set < SETS; set++)
        if ((set & SEVEN) == 0 || ((set & SHORT) == 0 && ((set ^ SEVEN) & ((set ^ SEVEN) - 1)) == 0))
            refused_by(set, recording);
    free(recording);
}

int main(void)
{
    ranks_by_table();
    room_by_the_first_bits();
    ranks_refused();
    return told("ranks");
}
