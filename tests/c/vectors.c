/* From C, every whole recording of tests/vectors/whole.txt and requests.txt judged, every code of registers.txt read, and
 * every recording of moves.txt moved. Run from the repository's root. */
#define MOST_LENT 4096
#include "checks.h"

int open(const char *path, int how, ...);
long read(int file, void *bytes, size_t length);

enum { TWENTY = 20, HEADER = 6, SIX = 6, MORE = 4 };

/* ---- the vectors */

static uint8_t text[1 << 20], recording[1 << 12], moved[1 << 12];

static unsigned digit(uint8_t c)
{
    return c >= 'a' ? c - 'a' + 10u : c - '0' + 0u;
}

/* The bytes of a field in hex, up to the tab behind it; '-' is none. */
static size_t unhex(const uint8_t *field, uint8_t *bytes)
{
    size_t n = 0;
    while (field[2 * n] > '-') {
        bytes[n] = (uint8_t)(digit(field[2 * n]) * 16 + digit(field[2 * n + 1]));
        n++;
    }
    return n;
}

static const uint8_t *after(const uint8_t *at, uint8_t mark)
{
    while (*at != mark)
        at++;
    return at + 1;
}

static uint64_t number(const uint8_t *at)
{
    uint64_t n = 0;
    while (*at >= '0' && *at <= '9')
        n = n * 10 + digit(*at++);
    return n;
}

static int is_wide(const uint8_t *bytes, size_t length)
{
    return length > 0 && bytes[0] >> 4 == 2;
}

/* The edge of the last record. */
static uint64_t last_edge(const uint8_t *bytes, size_t length)
{
    uint64_t edge = 0;
    size_t at, size = is_wide(bytes, length) ? 8 : 6;
    for (at = HEADER; at + size <= length; at += size)
        edge += (uint64_t)bytes[at] << 16 | (uint64_t)bytes[at + 1] << 8 | bytes[at + 2];
    return edge;
}

/* A line: the recording, tab, the end edge or '-' for the last record's, tab, the program's line, and where that is no
 * refusal, tab, the 20 bytes, in edition 2 the 40. */
static void by_line(const uint8_t *line, unsigned long row)
{
    uint8_t bytes[2 * TWENTY] = {0};
    size_t length = unhex(line, recording);
    size_t room = is_wide(recording, length) ? 2 * TWENTY : TWENTY;
    const uint8_t *end_field = after(line, '\t');
    const uint8_t *answer = after(end_field, '\t');
    uint64_t end = *end_field == '-' ? last_edge(recording, length) : number(end_field);
    uint32_t wanted = *answer == 'r' ? (uint32_t)number(after(answer, ' ')) : 0;
    size_t out_len;
    if (wanted == 0)
        unhex(after(answer, '\t'), bytes);
    for (out_len = room; out_len <= room + MORE; out_len += MORE)
        judging("vectors", row, recording, length, end, out_len, wanted, bytes, room);
    judging("vectors, no room", row, recording, length, end, room - 1, 9, bytes, 0);
}

/* A line: the edition moved to, tab, the lent length, tab, the recording, tab, the moved bytes or the refusal. */
static void by_move(const uint8_t *line, unsigned long row)
{
    const uint8_t *lent_field = after(line, '\t');
    const uint8_t *given = after(lent_field, '\t');
    const uint8_t *answer = after(given, '\t');
    size_t length = unhex(given, recording), n = 0;
    uint32_t wanted = *answer == 'r' ? (uint32_t)number(after(answer, ' ')) : 0;
    if (wanted == 0)
        n = unhex(answer, moved);
    moving("moves", row, *line == '2' ? manilaply_widen : manilaply_narrow, recording, length, (size_t)number(lent_field), wanted, moved, n);
    if (wanted == 0)
        moving("moves, back", row, *line == '2' ? manilaply_narrow : manilaply_widen, moved, n, length, 0, recording, length);
}

/* A line: the header, tab, the register's number, tab, the code, tab, what is returned, tab, the six bytes or '-'. */
static void by_code(const uint8_t *line, unsigned long row)
{
    uint8_t header[HEADER], code[2], six[SIX] = {0};
    const uint8_t *number_field = after(line, '\t');
    const uint8_t *code_field = after(number_field, '\t');
    const uint8_t *answer = after(code_field, '\t');
    uint32_t wanted = (uint32_t)number(answer), got;
    unsigned kind;
    unhex(line, header);
    unhex(code_field, code);
    if (wanted == 0)
        unhex(after(answer, '\t'), six);
    for (kind = 0; kind <= BLOCK; kind++) {
        uint8_t *out = lend(kind, SIX);
        got = manilaply_register(header, HEADER, (uint32_t)number(number_field), (uint16_t)(code[0] << 8 | code[1]), out, SIX);
        count(holds(kind, out, SIX, six, wanted == 0 ? SIX : 0) && got == wanted, "registers.txt", row, wanted, got);
    }
}

static void by_file(const char *path, unsigned long least, void by(const uint8_t *line, unsigned long row))
{
    int file = open(path, 0);
    size_t size = 0;
    long n;
    unsigned long row = 0;
    const uint8_t *at = text;
    while (size < sizeof text && (n = read(file, text + size, sizeof text - size)) > 0)
        size += (size_t)n;
    while (at < text + size) {
        by(at, ++row);
        at = after(at, '\n');
    }
    count(row >= least && size < sizeof text, path, row, 0, 0);
}

int main(void)
{
    by_file("tests/vectors/whole.txt", 1000, by_line);
    by_file("tests/vectors/requests.txt", 750, by_line);
    by_file("tests/vectors/moves.txt", 170, by_move);
    by_file("tests/vectors/registers.txt", 300, by_code);
    return told("vectors");
}
