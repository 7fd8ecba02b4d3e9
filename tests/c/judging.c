/* Judging a whole recording of edition 1 from C, on good and bad input: each answer and each byte of the lent buffers is held to the
 * tables below, which are written from 01's examples and its list of refusals, and from Q-1's and Q-2's rules. */
#include "checks.h"

enum { VERDICT = 20, SIX = 6, LIMIT = 1048576 };

#define HEADER 0x14, 0x05, 0xDC, 0, 0, 0
#define REGISTERS_AND_ACT \
    0, 0, 1, 0x82, 0, 0x10, 0, 0, 4, 0x83, 0, 0, 0, 0, 4, 0x81, 0, 0, 0, 0, 4, 0x80, 0x0B, 0x50, 0, 0, 12, 0x9B, 0x01, 0x23
#define READ 0, 1, 0xF4, 0xAB, 0, 0

static const uint8_t P8[] = {HEADER, REGISTERS_AND_ACT, READ, 0, 0, 4, 0x93, 0, 0};
static const uint8_t P9[] = {HEADER, REGISTERS_AND_ACT, READ, 0, 0, 5, 0x93, 0, 0};
static const uint8_t P10[] = {HEADER, REGISTERS_AND_ACT, READ, 0, 0, 5, 0x93, 0, 0, 0, 0, 4, 0x93, 0, 0, 0, 0, 5, 0x9B, 0, 0};
static const uint8_t P11[] = {HEADER};
static const uint8_t P12[] = {HEADER, REGISTERS_AND_ACT};

/* P9 and a power-down: the entry at 538 or 539, 14 clocks after the RD, the exit at 543. */
#define CLOSED HEADER, REGISTERS_AND_ACT, READ, 0, 0, 5, 0x93, 0, 0
#define NAP CLOSED, 0, 0, 9, 0x38, 0, 0, 0, 0, 4, 0xB8, 0, 0
static const uint8_t ENTRY[] = {CLOSED, 0, 0, 8, 0x38, 0, 0};
static const uint8_t EXIT[] = {CLOSED, 0, 0, 9, 0x38, 0, 0, 0, 0, 3, 0xB8, 0, 0};
static const uint8_t OPENS[] = {NAP, 0, 0, 3, 0x9B, 0, 0};
static const uint8_t READS[] = {NAP, 0, 0, 4, 0x9B, 0, 0, 0, 0, 9, 0xAB, 0, 0};
static const uint8_t READS_LATER[] = {NAP, 0, 0, 4, 0x9B, 0, 0, 0, 0, 12, 0xAB, 0, 0};
/* A REF at edge 1, and then no other: awake, in power-down from edge 2, asleep for 10,000 edges, and on a hot part. */
#define REF_AT_1 0, 0, 1, 0x88, 0, 0
static const uint8_t GAP[] = {HEADER, REF_AT_1};
static const uint8_t DOWN[] = {HEADER, REF_AT_1, 0, 0, 1, 0x38, 0, 0};
static const uint8_t SLEPT[] = {HEADER, REF_AT_1, 0, 0, 0x4A, 0x08, 0, 0, 0, 0x27, 0x10, 0xB8, 0, 0};
static const uint8_t HOT[] = {0x14, 0x85, 0xDC, 0, 0, 0, REF_AT_1};
/* A REF one edge before an interval ends: at edge 52000 the debt is 9 and the gap too long. Another REF there, or before. */
#define REF_AT_5199 0, 0x14, 0x4F, 0x88, 0, 0
static const uint8_t TIE[] = {HEADER, REF_AT_5199};
static const uint8_t TOO_LATE[] = {HEADER, REF_AT_5199, 0, 0xB6, 0xD1, 0x88, 0, 0};
static const uint8_t IN_TIME[] = {HEADER, REF_AT_5199, 0, 0xB6, 0xD0, 0x88, 0, 0};

static const uint64_t GREATEST_END = (uint64_t)1 << 44;

/* outcome, rule, record, partner, edge, needed, found; all 0 where it is refused */
static const struct {
    const uint8_t *recording;
    size_t length;
    uint64_t end;
    uint32_t wanted;
    uint64_t verdict[7];
} CASES[] = {
    {P8, sizeof P8, 528, 8, {0}},
    {P8, sizeof P8, 529, 0, {1, 10, 7, 6, 529, 5, 4}},
    {P8, sizeof P8, 100000, 0, {1, 10, 7, 6, 529, 5, 4}},
    {P9, sizeof P9, 529, 8, {0}},
    {P9, sizeof P9, 530, 0, {0, 0, 7, 0, 530, 0, 0}},
    {P9, sizeof P9, 46799, 0, {0, 0, 7, 0, 46799, 0, 0}},
    {P10, sizeof P10, 539, 0, {1, 5, 9, 8, 539, 9, 5}},
    {P11, sizeof P11, 0, 0, {0, 0, 0, 0, 0, 0, 0}},
    {P11, sizeof P11, 46799, 0, {0, 0, 0, 0, 46799, 0, 0}},
    {P11, sizeof P11, 46800, 0, {1, 25, 0, 0, 46800, 8, 9}},
    {P11, sizeof P11, (uint64_t)1 << 44, 0, {1, 25, 0, 0, 46800, 8, 9}},
    {P11, sizeof P11, ((uint64_t)1 << 44) + 1, 8, {0}},
    {P11, sizeof P11, ~(uint64_t)0, 8, {0}},
    {P12, sizeof P12, 24, 8, {0}},
    {P12, sizeof P12, 46691, 0, {0, 0, 5, 0, 46691, 0, 0}},
    {P12, sizeof P12, 46692, 0, {1, 24, 0, 5, 46692, 46666, 46667}},
    {ENTRY, sizeof ENTRY, 538, 0, {1, 26, 8, 6, 538, 14, 13}},
    {EXIT, sizeof EXIT, 542, 0, {1, 27, 9, 8, 542, 4, 3}},
    {OPENS, sizeof OPENS, 546, 0, {1, 29, 10, 9, 546, 4, 3}},
    {READS, sizeof READS, 556, 0, {1, 30, 11, 9, 556, 16, 13}},
    {READS_LATER, sizeof READS_LATER, 559, 0, {0, 0, 11, 0, 559, 0, 0}},
    {GAP, sizeof GAP, 46801, 0, {0, 0, 1, 0, 46801, 0, 0}},
    {GAP, sizeof GAP, 46802, 0, {1, 31, 0, 1, 46802, 46800, 46801}},
    {DOWN, sizeof DOWN, 46801, 0, {0, 0, 2, 0, 46801, 0, 0}},
    {DOWN, sizeof DOWN, 46803, 0, {1, 31, 0, 1, 46802, 46800, 46801}},
    {SLEPT, sizeof SLEPT, 56801, 0, {0, 0, 3, 0, 56801, 0, 0}},
    {SLEPT, sizeof SLEPT, 56802, 0, {1, 31, 0, 1, 56802, 46800, 46801}},
    {HOT, sizeof HOT, 23401, 0, {0, 0, 1, 0, 23401, 0, 0}},
    {HOT, sizeof HOT, 23402, 0, {1, 31, 0, 1, 23402, 23400, 23401}},
    {TIE, sizeof TIE, 52000, 0, {1, 25, 0, 1, 52000, 8, 9}},
    {TOO_LATE, sizeof TOO_LATE, 52000, 0, {1, 31, 0, 1, 52000, 46800, 46801}},
    {IN_TIME, sizeof IN_TIME, 51999, 0, {0, 0, 2, 0, 51999, 0, 0}},
    {P8, 5, 0, 1, {0}},
    {P8, 7, 0, 5, {0}},
    {P8, sizeof P8 - 1, 529, 5, {0}},
};

static void judging_by_table(void)
{
    unsigned long row;
    size_t out_len;
    for (row = 0; row < ROWS(CASES); row++) {
        uint8_t verdict[VERDICT];
        as_bytes(CASES[row].verdict, verdict);
        for (out_len = 0; out_len <= MOST; out_len++)
            judging("judging", row, CASES[row].recording, CASES[row].length, CASES[row].end, out_len,
                    out_len < VERDICT ? 9 : CASES[row].wanted, verdict, VERDICT);
    }
}

/* In the order of the checks. */
static const uint32_t ORDER[] = {9, 1, 2, 3, 4, 5, 7, 6, 8};
enum { NINE = 1, ONE = 2, TWO = 4, THREE = 8, FOUR = 16, FIVE = 32, SEVEN = 64, SIXTH = 128, EIGHT = 256, SETS = 512 };

/* A recording of NOPs in which just the refusals of the set hold, bit i for ORDER[i]; with 1, those that its bytes show. */
static void refused_by(unsigned set, uint8_t *recording)
{
    static const uint8_t NOP[SIX] = {0, 0, 1, 0xB8, 0, 0}, GOOD[SIX] = {HEADER};
    uint8_t clean[VERDICT];
    uint64_t fields[7] = {0, 0, 3, 0, 3, 0, 0};
    size_t records = set & SEVEN ? LIMIT + 1 : 3, i;
    size_t length = set & ONE ? 4 : SIX + records * SIX + (set & FIVE ? 5 : 0);
    for (i = 0; i < SIX + records * SIX + 5; i++)
        recording[i] = i < SIX ? GOOD[i] : NOP[i % SIX];
    if (set & TWO)
        recording[0] = 0x34;
    if (set & THREE)
        recording[1] |= 0x40;
    if (set & FOUR)
        recording[2] = 0xDB;
    if (set & SIXTH)
        recording[SIX + (records - 1) * SIX + 2] = 0;
    as_bytes(fields, clean);
    judging("refusals at once", set, recording, length, set & EIGHT ? GREATEST_END + 1 : set & SEVEN ? 2 * LIMIT : 3,
            set & NINE ? VERDICT - 1 : VERDICT, first_in(ORDER, ROWS(ORDER), set), clean, VERDICT);
}

/* With 7 only once each with one other: the recording is long. */
static void judging_refused(void)
{
    uint8_t *recording = malloc((size_t)SIX * (LIMIT + 3));
    unsigned set;
    for (set = 0; set < SETS; set++)
        if ((set & SEVEN) == 0 || ((set & ONE) == 0 && ((set ^ SEVEN) & ((set ^ SEVEN) - 1)) == 0))
            refused_by(set, recording);
    free(recording);
}

/* A null pointer with length 0, for the recording, for out, for both. */
static void judging_of_null(void)
{
    unsigned kind;
    uint32_t got;
    for (kind = 0; kind <= BLOCK; kind++) {
        uint8_t *out = lend(kind, VERDICT);
        got = manilaply_judge(0, 0, 0, out, VERDICT);
        count(holds(kind, out, VERDICT, P8, 0) && got == 1, "null recording", kind, 1, got);
    }
    got = manilaply_judge(P8, sizeof P8, 529, 0, 0);
    count(got == 9, "null out", 0, 9, got);
    got = manilaply_judge(0, 0, 0, 0, 0);
    count(got == 9, "null recording and out", 0, 9, got);
}

int main(void)
{
    judging_by_table();
    judging_refused();
    judging_of_null();
    return told("judging");
}
