/* All ranks of a recording: opening, a section, closing, and a whole recording at once. */
#include "judge.h"

static const uint64_t GREATEST_END = UINT64_C(1) << 44;

int board_open(struct board *b, const uint8_t *header, size_t length)
{
    int refused = judge_open(&b->rank[0], header, length);
    if (refused)
        return refused;
    b->ranks = b->rank[0].header.edition;
    if (b->ranks == RANKS)
        b->rank[1] = b->rank[0];
    return 0;
}

/* The first rank's walk finds what the section is refused for. */
static int take_all(struct board *b, const uint8_t *bytes, size_t length)
{
    int refused;
    if (b->ranks == 1)
        return judge_records(&b->rank[0], bytes, length);
    refused = judge_wide_records(&b->rank[0], bytes, length, 0);
    return refused ? refused : judge_wide_records(&b->rank[1], bytes, length, 1);
}

int board_section(struct board *b, const uint8_t *bytes, size_t length)
{
    struct judge before = b->rank[0];
    size_t size = b->ranks == 1 ? SIX : EIGHT_BYTES;
    int refused = length % size != 0 ? 5 : length / size > MOST_RECORDS - before.count ? 7 : take_all(b, bytes, length);
    if (refused)
        b->rank[0] = before;
    return refused;
}

int board_close(const struct board *b, int64_t end, struct verdict *verdicts)
{
    int i, refused = 0;
    for (i = 0; i < b->ranks && !refused; i++)
        refused = judge_close(&b->rank[i], end, &verdicts[i]);
    return refused;
}

static uint8_t *put(uint8_t *out, int64_t value, int bytes)
{
    while (bytes-- > 0)
        *out++ = (uint8_t)(value >> (8 * bytes));
    return out;
}

static uint8_t *put_verdict(uint8_t *out, const struct verdict *v)
{
    out = put(put(put(put(out, v->broken, 1), v->rule, 1), v->record, 3), v->partner, 3);
    return put(put(put(out, v->edge, 6), v->needed, 3), v->found, 3);
}

uint32_t judge_whole(const uint8_t *recording, size_t length, uint64_t end, uint8_t *out, size_t out_length)
{
    struct board b;
    struct verdict v[RANKS];
    size_t room = length > 0 && recording[0] >> 4 == RANKS ? RANKS * VERDICT_BYTES : VERDICT_BYTES;
    int i, refused = out_length < room ? 9 : length < SIX ? 1 : board_open(&b, recording, SIX);
    if (!refused)
        refused = board_section(&b, recording + SIX, length - SIX);
    if (!refused)
        refused = end > GREATEST_END ? 8 : board_close(&b, (int64_t)end, v);
    if (refused)
        return (uint32_t)refused;
    for (i = 0; i < b.ranks; i++)
        out = put_verdict(out, &v[i]);
    return 0;
}
