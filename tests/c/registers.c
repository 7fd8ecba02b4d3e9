/* Register reading from C, on good and bad input: each answer and each byte of the lent buffers is held to the tables
 * below, which are written from 01. */
#include "checks.h"

enum { SIX = 6 };

/* A header in a block of its own, which the call must leave as it is. */
static uint32_t read_under(const uint8_t *header, size_t header_len, uint32_t number, uint16_t code,
                           uint8_t *out, size_t out_len, int *kept)
{
    uint8_t *lent = malloc(header_len);
    uint32_t got;
    size_t i;
    for (i = 0; i < header_len; i++)
        lent[i] = header[i];
    got = manilaply_register(lent, header_len, number, code, out, out_len);
    for (i = 0; i < header_len; i++)
        *kept &= lent[i] == header[i];
    free(lent);
    return got;
}

/* One reading on a buffer of out_len bytes, of each kind. */
static void reading(const char *table, unsigned long row, const uint8_t *header, size_t header_len,
                    uint32_t number, uint16_t code, size_t out_len, uint32_t wanted, const uint8_t *six)
{
    unsigned kind;
    for (kind = 0; kind <= BLOCK; kind++) {
        uint8_t *out = lend(kind, out_len);
        int good = 1;
        uint32_t got = read_under(header, header_len, number, code, out, out_len, &good);
        good &= holds(kind, out, out_len, six, wanted == 0 ? SIX : 0);
        count(good && got == wanted, table, row, wanted, got);
    }
}

/* Bin 1, 1500 ps, 1 Gb x8 (P1); bin 3, 1070 ps, 2 Gb x16 (P2); bin 1 at 2500 and 2499 ps (P7). */
static const uint8_t P1[] = {0x14, 0x05, 0xDC, 0, 0, 0};
static const uint8_t P2[] = {0x1F, 0x04, 0x2E, 0, 0, 0};
static const uint8_t P7[] = {0x14, 0x09, 0xC4, 0, 0, 0};
static const uint8_t P7_UNDER[] = {0x14, 0x09, 0xC3, 0, 0, 0};

static const struct {
    const uint8_t *header;
    uint32_t number;
    uint16_t code;
    uint8_t six[SIX];
} ALLOWED[] = {
    /* A1A0, A3, CL, A8, WR, A12 */
    {P1, 0, 0x0B50, {0, 0, 9, 1, 10, 0}},
    {P1, 0, 0x1C69, {1, 1, 10, 0, 12, 1}},
    {P1, 0, 0x0E52, {2, 0, 9, 0, 14, 0}},
    {P1, 0, 0x0050, {0, 0, 9, 0, 16, 0}},
    {P2, 0, 0x0004, {0, 0, 12, 0, 16, 0}},
    {P7, 0, 0x0420, {0, 0, 6, 0, 6, 0}},
    {P7_UNDER, 0, 0x0630, {0, 0, 7, 0, 7, 0}},
    /* A4A3, A1, A9A6A2, A11, A12, 0 */
    {P1, 1, 0x0000, {0, 0, 0, 0, 0, 0}},
    {P1, 1, 0x1A16, {2, 1, 5, 1, 1, 0}},
    {P1, 1, 0x0048, {1, 0, 2, 0, 0, 0}},
    {P2, 1, 0x1216, {2, 1, 5, 0, 1, 0}},
    /* CWL, A6, A7, A10A9, A2..A0, 0 */
    {P1, 2, 0x0010, {7, 0, 0, 0, 0, 0}},
    {P1, 2, 0x0495, {7, 0, 1, 2, 5, 0}},
    {P1, 2, 0x0257, {7, 1, 0, 1, 7, 0}},
    {P2, 2, 0x0020, {9, 0, 0, 0, 0, 0}},
    {P7, 2, 0x0000, {5, 0, 0, 0, 0, 0}},
    {P7_UNDER, 2, 0x0008, {6, 0, 0, 0, 0, 0}},
    /* zeros */
    {P1, 3, 0x0000, {0, 0, 0, 0, 0, 0}},
    {P2, 3, 0x0000, {0, 0, 0, 0, 0, 0}},
};

/* Each is refused with 11 and 256 times the bit: the lowest of a field that is not allowed, 16 where there is no such register. */
static const struct {
    const uint8_t *header;
    uint32_t number;
    uint16_t code;
    uint32_t bit;
} NOT_ALLOWED[] = {
    /* MR0: burst 11; CL 0000 and 8; A7; WR 8; A13, A14, A15 */
    {P1, 0, 0x0B53, 0}, {P1, 0, 0x0B00, 2}, {P1, 0, 0x0B40, 2}, {P1, 0, 0x0BD0, 7}, {P1, 0, 0x0950, 9},
    {P1, 0, 0x2B50, 13}, {P1, 0, 0x4B50, 14}, {P1, 0, 0x8B50, 15},
    /* MR0: WR 14 at P2 (P6); CL 7 at 2500 and CL 6 at 2499 (P7) */
    {P2, 0, 0x0E04, 9}, {P7, 0, 0x0430, 2}, {P7_UNDER, 0, 0x0620, 2},
    /* MR1: A0, A5, A7, A8, A10, A13, A14, A15; AL 11; A9A6A2 110, 111; A11 on x16 */
    {P1, 1, 0x0001, 0}, {P1, 1, 0x0020, 5}, {P1, 1, 0x0080, 7}, {P1, 1, 0x0100, 8}, {P1, 1, 0x0400, 10},
    {P1, 1, 0x2000, 13}, {P1, 1, 0x4000, 14}, {P1, 1, 0x8000, 15}, {P1, 1, 0x0018, 3}, {P1, 1, 0x0240, 2},
    {P1, 1, 0x0244, 2}, {P2, 1, 0x0800, 11},
    /* MR2: CWL 6, 8, 12; A8; A10A9 11; A6 with A7; A11 to A15 */
    {P1, 2, 0x0008, 3}, {P1, 2, 0x0018, 3}, {P1, 2, 0x0038, 3}, {P1, 2, 0x0110, 8}, {P1, 2, 0x0610, 9},
    {P1, 2, 0x00D0, 6}, {P1, 2, 0x0810, 11}, {P1, 2, 0x1010, 12}, {P1, 2, 0x2010, 13}, {P1, 2, 0x4010, 14},
    {P1, 2, 0x8010, 15},
    /* MR3: every bit */
    {P1, 3, 0x0001, 0}, {P1, 3, 0x0002, 1}, {P1, 3, 0x0004, 2}, {P1, 3, 0x0008, 3}, {P1, 3, 0x0010, 4},
    {P1, 3, 0x0020, 5}, {P1, 3, 0x0040, 6}, {P1, 3, 0x0080, 7}, {P1, 3, 0x0100, 8}, {P1, 3, 0x0200, 9},
    {P1, 3, 0x0400, 10}, {P1, 3, 0x0800, 11}, {P1, 3, 0x1000, 12}, {P1, 3, 0x2000, 13}, {P1, 3, 0x4000, 14},
    {P1, 3, 0x8000, 15},
    /* two fields at once: the lower; a field whose higher bits stand above another's lowest */
    {P1, 0, 0xEBD3, 0}, {P1, 0, 0xE9D0, 7}, {P1, 1, 0x0640, 2}, {P1, 1, 0x0258, 2}, {P1, 1, 0xE418, 3},
    {P1, 2, 0xFED0, 6}, {P1, 2, 0xFE00, 3}, {P1, 3, 0xFFFF, 0}, {P1, 3, 0x8002, 1}, {P2, 1, 0x8800, 11},
    /* no register above 3, also where the number's low bits are those of one */
    {P1, 4, 0, 16}, {P1, 5, 0, 16}, {P1, 7, 0, 16}, {P1, 8, 0, 16}, {P1, 255, 0, 16}, {P1, 256, 0x0B50, 16},
    {P1, 259, 0, 16}, {P1, 65539, 0, 16}, {P1, 0x80000003, 0, 16}, {P1, 0xFFFFFFFF, 0, 16},
};

/* Headers by what is answered to MR3's code 0, which every header allows that is taken. */
static const struct {
    uint8_t header[SIX];
    uint32_t wanted;
} HEADERS[] = {
    /* editions other than 1 */
    {{0x04, 0x05, 0xDC, 0, 0, 0}, 2}, {{0x24, 0x05, 0xDC, 0, 0, 0}, 2},
    {{0x34, 0x05, 0xDC, 0, 0, 0}, 2}, {{0x54, 0x05, 0xDC, 0, 0, 0}, 2},
    {{0x94, 0x05, 0xDC, 0, 0, 0}, 2}, {{0xF4, 0x05, 0xDC, 0, 0, 0}, 2},
    /* each bit of the zero fields */
    {{0x14, 0x45, 0xDC, 0, 0, 0}, 3}, {{0x14, 0x25, 0xDC, 0, 0, 0}, 3},
    {{0x14, 0x15, 0xDC, 0, 0, 0}, 3},
    {{0x14, 0x05, 0xDC, 0x80, 0, 0}, 3}, {{0x14, 0x05, 0xDC, 0x40, 0, 0}, 3},
    {{0x14, 0x05, 0xDC, 0x20, 0, 0}, 3}, {{0x14, 0x05, 0xDC, 0x10, 0, 0}, 3},
    {{0x14, 0x05, 0xDC, 0x08, 0, 0}, 3}, {{0x14, 0x05, 0xDC, 0x04, 0, 0}, 3},
    {{0x14, 0x05, 0xDC, 0x02, 0, 0}, 3}, {{0x14, 0x05, 0xDC, 0x01, 0, 0}, 3},
    {{0x14, 0x05, 0xDC, 0, 0x80, 0}, 3}, {{0x14, 0x05, 0xDC, 0, 0x40, 0}, 3},
    {{0x14, 0x05, 0xDC, 0, 0x20, 0}, 3}, {{0x14, 0x05, 0xDC, 0, 0x10, 0}, 3},
    {{0x14, 0x05, 0xDC, 0, 0x08, 0}, 3}, {{0x14, 0x05, 0xDC, 0, 0x04, 0}, 3},
    {{0x14, 0x05, 0xDC, 0, 0x02, 0}, 3}, {{0x14, 0x05, 0xDC, 0, 0x01, 0}, 3},
    {{0x14, 0x05, 0xDC, 0, 0, 0x80}, 3}, {{0x14, 0x05, 0xDC, 0, 0, 0x40}, 3},
    {{0x14, 0x05, 0xDC, 0, 0, 0x20}, 3}, {{0x14, 0x05, 0xDC, 0, 0, 0x10}, 3},
    {{0x14, 0x05, 0xDC, 0, 0, 0x08}, 3}, {{0x14, 0x05, 0xDC, 0, 0, 0x04}, 3},
    {{0x14, 0x05, 0xDC, 0, 0, 0x02}, 3}, {{0x14, 0x05, 0xDC, 0, 0, 0x01}, 3},
    /* by bin: one under the least period, the least, 3300, 3301 */
    {{0x10, 0x07, 0x52, 0, 0, 0}, 4}, {{0x10, 0x07, 0x53, 0, 0, 0}, 0},
    {{0x10, 0x0C, 0xE4, 0, 0, 0}, 0}, {{0x10, 0x0C, 0xE5, 0, 0, 0}, 4},
    {{0x14, 0x05, 0xDB, 0, 0, 0}, 4}, {{0x14, 0x05, 0xDC, 0, 0, 0}, 0},
    {{0x14, 0x0C, 0xE4, 0, 0, 0}, 0}, {{0x14, 0x0C, 0xE5, 0, 0, 0}, 4},
    {{0x18, 0x04, 0xE1, 0, 0, 0}, 4}, {{0x18, 0x04, 0xE2, 0, 0, 0}, 0},
    {{0x18, 0x0C, 0xE4, 0, 0, 0}, 0}, {{0x18, 0x0C, 0xE5, 0, 0, 0}, 4},
    {{0x1C, 0x04, 0x2D, 0, 0, 0}, 4}, {{0x1C, 0x04, 0x2E, 0, 0, 0}, 0},
    {{0x1C, 0x0C, 0xE4, 0, 0, 0}, 0}, {{0x1C, 0x0C, 0xE5, 0, 0, 0}, 4},
    /* the least and the greatest that twelve bits hold */
    {{0x14, 0x00, 0x00, 0, 0, 0}, 4}, {{0x14, 0x0F, 0xFF, 0, 0, 0}, 4},
    /* density, width and hot are free */
    {{0x16, 0x05, 0xDC, 0, 0, 0}, 0}, {{0x15, 0x05, 0xDC, 0, 0, 0}, 0},
    {{0x14, 0x85, 0xDC, 0, 0, 0}, 0}, {{0x17, 0x85, 0xDC, 0, 0, 0}, 0},
};

static const uint8_t ZEROS[SIX] = {0, 0, 0, 0, 0, 0};

static void registers_by_table(void)
{
    unsigned long row;
    size_t length;
    for (row = 0; row < ROWS(ALLOWED); row++)
        for (length = 0; length <= MOST; length++)
            reading("register allowed", row, ALLOWED[row].header, SIX, ALLOWED[row].number,
                    ALLOWED[row].code, length, length < SIX ? 9 : 0, ALLOWED[row].six);
    for (row = 0; row < ROWS(NOT_ALLOWED); row++)
        for (length = SIX; length <= SIX + 1; length++)
            reading("register not allowed", row, NOT_ALLOWED[row].header, SIX,
                    NOT_ALLOWED[row].number, NOT_ALLOWED[row].code, length,
                    11 + 256 * NOT_ALLOWED[row].bit, ZEROS);
    for (row = 0; row < ROWS(HEADERS); row++)
        for (length = SIX; length <= SIX + 1; length++)
            reading("register header", row, HEADERS[row].header, SIX, 3, 0, length,
                    HEADERS[row].wanted, ZEROS);
}

/* Headers of every length but 6, the first bytes those of a good one. */
static void header_lengths(void)
{
    uint8_t header[MOST] = {0x14, 0x05, 0xDC};
    size_t length;
    for (length = 0; length <= MOST; length++)
        reading("header length", length, header, length, 3, 0, SIX, length == SIX ? 0 : 1, ZEROS);
}

/* In the order of the checks. */
static const uint32_t REGISTER_ORDER[] = {9, 1, 2, 3, 4, 11};

static const size_t NOT_SIX[] = {3, 5, 7};

/* A reading in which just the refusals of the set hold, bit i for REGISTER_ORDER[i]; by the code 11 comes with bit 0, by the
 * number with 16. */
static void refused_by(unsigned set, size_t not_six)
{
    uint8_t header[7] = {0x14, 0x05, 0xDC, 0, 0, 0, 0};
    size_t out_len = set & 1 ? SIX - 1 : SIX;
    size_t header_len = set >> 1 & 1 ? not_six : SIX;
    unsigned bad = set >> 5 & 1;
    uint32_t wanted = 0;
    unsigned i;
    for (i = 0; i < 6 && wanted == 0; i++)
        if (set >> i & 1)
            wanted = REGISTER_ORDER[i];
    if (set >> 2 & 1)
        header[0] = 0x24;
    if (set >> 3 & 1)
        header[1] = 0x45;
    if (set >> 4 & 1)
        header[2] = 0xDB;
    reading("refusals at once, by code", set, header, header_len, 3, (uint16_t)bad, out_len, wanted, ZEROS);
    if (wanted == 11)
        wanted += 256 * 16;
    reading("refusals at once, by number", set, header, header_len, 3 + bad, 0, out_len, wanted, ZEROS);
}

static void registers_refused(void)
{
    unsigned set;
    size_t i;
    for (set = 0; set < 64; set++)
        for (i = 0; i < ROWS(NOT_SIX); i++)
            if (i == 0 || set >> 1 & 1)
                refused_by(set, NOT_SIX[i]);
}

/* A null pointer with length 0, for the header, for out, for both. */
static void registers_of_null(void)
{
    static const uint8_t BAD[SIX] = {0x24, 0x45, 0xDB, 0, 0, 1};
    unsigned kind;
    uint32_t got;
    for (kind = 0; kind <= BLOCK; kind++) {
        uint8_t *out = lend(kind, SIX);
        got = manilaply_register(0, 0, 3, 0, out, SIX);
        count(holds(kind, out, SIX, ZEROS, 0) && got == 1, "null header", kind, 1, got);
    }
    got = manilaply_register(P1, SIX, 3, 0, 0, 0);
    count(got == 9, "null out", 0, 9, got);
    got = manilaply_register(BAD, SIX, 4, 1, 0, 0);
    count(got == 9, "null out, all else bad", 0, 9, got);
    got = manilaply_register(0, 0, 3, 0, 0, 0);
    count(got == 9, "null header and out", 0, 9, got);
}

int main(void)
{
    registers_by_table();
    header_lengths();
    registers_refused();
    registers_of_null();
    return told("registers");
}
