/* The running judge: a section's records, what each leaves behind, the deadlines, opening, closing. For each command the
 * edge is kept from which no rule is in its way; only before it the rules themselves are asked. */
#include "judge.h"

#include <string.h>

static const uint64_t GREATEST_END = UINT64_C(1) << 44;

enum { MOST_DEBT = 9, LEAST_DEBT = -8 };

/* The walk over a section's records stands here three times: for edition 1 and for each rank of edition 2. */
#define INLINE inline __attribute__((always_inline))

static inline int64_t later(int64_t a, int64_t b)
{
    return a > b ? a : b;
}

static inline int64_t sooner(int64_t a, int64_t b)
{
    return a < b ? a : b;
}

/* ---- deadlines */

/* The edge at which a rule breaks if nothing comes. */
struct deadline {
    int64_t at;
    int rule;
    uint32_t partner;
    int32_t limit;
};

/* Asleep no refresh falls due. Nine intervals are as many clocks as the greatest stay. */
static struct deadline gap_deadline(const struct judge *j)
{
    struct deadline gap = {j->mode == ASLEEP ? NEVER : j->gap_due, 31, j->ref.number, j->t.stay};
    return gap;
}

/* Of several at one edge that of the lowest rule. */
static struct deadline soonest_deadline(const struct judge *j)
{
    struct deadline soonest = gap_deadline(j), debt = {j->debt_due, 25, j->ref.number, MOST_DEBT - 1};
    struct deadline stay = {j->entry.at + j->t.stay + 1, 28, j->entry.number, j->t.stay};
    int i;
    if (j->mode == DOWN && stay.at <= soonest.at)
        soonest = stay;
    if (j->mode != ASLEEP && debt.at <= soonest.at)
        soonest = debt;
    for (i = 0; i < BANKS; i++) {
        const struct bank *b = &j->bank[i];
        struct deadline open = {b->act.at + j->t.most_ras + 1, 24, b->act.number, j->t.most_ras};
        if ((b->start == NEVER || b->late) && open.at <= soonest.at)
            soonest = open;
    }
    return soonest;
}

static void say_late(struct judge *j, struct deadline due)
{
    int64_t last = j->edge;
    j->edge = due.at;
    say(j, due.rule, 0, due.partner, due.limit, due.limit + 1);
    j->edge = last;
}

/* ---- a record */

struct record {
    enum command command;
    unsigned ba, a;
    int64_t edge;
    uint32_t number;
};

static struct mark mark(struct record r, int32_t need)
{
    struct mark m = {r.edge, r.number, need};
    return m;
}

static int __attribute__((cold)) rules_break(struct judge *j, struct record r)
{
    j->edge = r.edge;
    j->count = r.number;
    return breaks_a_rule(j, r.command, r.ba, r.a);
}

/* A deadline at the record's own edge comes after the rules below it, and a REF is still in time for rule 25, not for 31. */
static int __attribute__((cold)) deadline_breaks(struct judge *j, struct record r)
{
    struct deadline due = soonest_deadline(j);
    j->soonest = sooner(due.at, r.edge + j->t.most_ras + 1);
    if (due.at == r.edge && due.rule == 25 && r.command == REF)
        due = gap_deadline(j);
    if (due.at > r.edge)
        return 0;
    if (due.at < r.edge || !rules_break(j, r) || j->first.rule > due.rule)
        say_late(j, due);
    return 1;
}

static INLINE void shut(struct judge *j, struct bank *b, int64_t start, uint32_t number)
{
    b->start = start;
    b->shut_by = number;
    b->act_from = later(start + j->t.rp, b->act.at + j->t.rc);
    b->column_from = NEVER;
}

static INLINE int activate(struct judge *j, struct bank *b, struct record r)
{
    if (r.edge < b->act_from || r.edge < j->act_from || r.edge < j->quiet) {
        if (rules_break(j, r))
            return 1;
        column_kinds(j->kind, &j->t, j->code);
        j->to_column = act_to_column(&j->t, j->code);
    }
    b->act = mark(r, j->to_column);
    b->row = (uint16_t)r.a;
    b->start = b->act_from = NEVER;
    b->column_from = r.edge + j->to_column;
    b->pre_from = r.edge + j->t.ras;
    j->acts[j->oldest] = b->act;
    j->oldest = (j->oldest + 1) % 4;
    j->act_from = later(r.edge + j->t.rrd, j->acts[j->oldest].at + j->t.faw);
    return 0;
}

static INLINE int column(struct judge *j, struct bank *b, struct record r)
{
    enum direction d = (enum direction)(RD - r.command);
    const struct kind *kind = &j->kind[2 * d + (r.a >> 12 & 1)];
    if ((r.edge < b->column_from || r.edge < j->column_from[d] || r.edge < j->quiet) && rules_break(j, r))
        return 1;
    b->column[d].at = r.edge;
    b->column[d].needs = kind->needs;
    b->column[d].number = r.number;
    b->pre_from = later(b->pre_from, r.edge + kind->needs.pre);
    j->latest[d] = r.ba;
    j->column_from[d] = r.edge + SAME_TO_SAME;
    j->column_from[1 - d] = later(j->column_from[1 - d], r.edge + kind->needs.other);
    if ((r.a & A10) != 0) {
        int64_t start = later(b->act.at + kind->start_from_act, r.edge + kind->start_from_here);
        shut(j, b, start, r.number);
        b->pre_from = later(b->pre_from, start);
        b->late = start > b->act.at + j->t.most_ras;
        if (d == WRITE) {
            j->auto_write = mark(r, kind->start_from_here + 1);
            b->column[d].needs.entry = (uint16_t)j->auto_write.need;
        }
    }
    return 0;
}

static INLINE int precharge(struct judge *j, struct bank *b, struct record r)
{
    if ((r.edge < b->pre_from || r.edge < j->quiet) && rules_break(j, r))
        return 1;
    shut(j, b, r.edge, r.number);
    return 0;
}

static inline int precharge_all(struct judge *j, struct record r)
{
    int64_t from = j->quiet;
    int i;
    for (i = 0; i < BANKS; i++)
        from = later(from, j->bank[i].pre_from);
    if (r.edge < from && rules_break(j, r))
        return 1;
    for (i = 0; i < BANKS; i++)
        shut(j, &j->bank[i], r.edge, r.number);
    return 0;
}

static inline int64_t all_idle_from(const struct judge *j)
{
    int64_t start = j->bank[0].start;
    int i;
    for (i = 1; i < BANKS; i++)
        start = later(start, j->bank[i].start);
    return start + j->t.rp;
}

static inline int64_t read_out(const struct judge *j)
{
    const struct column *read = &j->bank[j->latest[READ]].column[READ];
    return read->at + read->needs.set;
}

static inline void hold_all(struct judge *j, int64_t edge)
{
    j->quiet = j->set_from = edge;
}

/* Debt is 9 at debt_due, and one less for each interval before it. */
static INLINE int refresh(struct judge *j, struct record r)
{
    if ((r.edge < all_idle_from(j) || r.edge < j->quiet) && rules_break(j, r))
        return 1;
    j->ref = mark(r, j->t.rfc);
    j->refresh_owed = 0;
    hold_all(j, r.edge + j->t.rfc);
    if (j->debt_due - r.edge <= (MOST_DEBT - LEAST_DEBT - 1) * (int64_t)j->t.refi)
        j->debt_due += j->t.refi;
    j->gap_due = r.edge + j->t.stay + 1;
    return 0;
}

static inline int calibrate(struct judge *j, struct record r)
{
    int32_t need = (r.a & A10) != 0 ? j->t.zq_long : j->t.zq_short;
    if ((r.edge < all_idle_from(j) || r.edge < j->quiet) && rules_break(j, r))
        return 1;
    j->zq = mark(r, need);
    hold_all(j, r.edge + need);
    return 0;
}

/* What follows from the registers is worked out at the next ACT. */
static inline int set_mode(struct judge *j, struct record r)
{
    if ((r.edge < all_idle_from(j) || r.edge < j->set_from || r.edge < read_out(j) ||
         bad_bit(&j->header, &j->t, r.ba, r.a) != NO_BIT) &&
        rules_break(j, r))
        return 1;
    j->mrs = mark(r, j->t.mod);
    j->quiet = r.edge + j->t.mod;
    j->set_from = r.edge + MRS_TO_MRS;
    j->act_from = NEVER;
    j->code[r.ba] = (uint16_t)r.a;
    j->written |= 1u << r.ba;
    if (r.ba == 0 && (r.a >> 8 & 1) == 1) {
        j->written |= DLL_RESET;
        j->reset = mark(r, DLL_LOCK);
        j->column_from[READ] = r.edge + DLL_LOCK;
    }
    return 0;
}

static inline int fall_asleep(struct judge *j, struct record r)
{
    if ((r.edge < all_idle_from(j) || r.edge < j->quiet || r.edge < read_out(j) || j->refresh_owed ||
         r.edge < j->changed.at + j->t.cke) &&
        rules_break(j, r))
        return 1;
    j->slept = mark(r, j->t.cke + 1);
    j->changed = mark(r, j->t.cke);
    j->debt_due -= r.edge;
    j->gap_due -= r.edge;
    j->mode = ASLEEP;
    return 0;
}

static inline int wake(struct judge *j, struct record r)
{
    if (r.edge < j->slept.at + j->slept.need && rules_break(j, r))
        return 1;
    j->woke = mark(r, j->t.xs);
    j->changed = mark(r, j->t.cke);
    j->reset = mark(r, DLL_LOCK);
    j->refresh_owed = 1;
    hold_all(j, r.edge + j->t.xs);
    if (j->column_from[READ] != NEVER)
        j->column_from[READ] = r.edge + DLL_LOCK;
    j->debt_due += r.edge;
    j->gap_due += r.edge;
    j->soonest = sooner(j->soonest, sooner(j->debt_due, j->gap_due));
    j->mode = AWAKE;
    return 0;
}

static inline int power_down(struct judge *j, struct record r)
{
    int i;
    if (rules_break(j, r))
        return 1;
    j->entry = j->changed = mark(r, j->t.cke);
    j->closed = 1;
    for (i = 0; i < BANKS; i++)
        j->closed &= j->bank[i].start != NEVER;
    j->soonest = sooner(j->soonest, r.edge + j->t.stay + 1);
    j->mode = DOWN;
    return 0;
}

/* With A12 of MR0 low the DLL is off in precharge power-down, and a RD has to wait for it. */
static inline int power_up(struct judge *j, struct record r)
{
    if (rules_break(j, r))
        return 1;
    j->changed = mark(r, j->t.cke);
    j->left = mark(r, j->t.xp);
    j->quiet = later(j->quiet, r.edge + j->t.xp);
    j->set_from = later(j->set_from, r.edge + j->t.xp);
    if (j->closed && (j->written & 1) != 0 && (j->code[0] >> 12 & 1) == 0) {
        j->slow = mark(r, j->t.xpdll);
        j->column_from[READ] = later(j->column_from[READ], r.edge + j->t.xpdll);
    }
    j->mode = AWAKE;
    return 0;
}

/* By what the part does; CKE now, CS, RAS, CAS, WE. DES, and whatever comes while CKE stays low, is as good as NOP. */
#define EIGHT(command) command, command, command, command, command, command, command, command
#define SEVEN_FORBIDDEN FORBIDDEN, FORBIDDEN, FORBIDDEN, FORBIDDEN, FORBIDDEN, FORBIDDEN, FORBIDDEN
static const uint8_t COMMAND[3][32] = {
    {EIGHT(NOP), EIGHT(NOP), SEVEN_FORBIDDEN, SRX, EIGHT(SRX)},
    {FORBIDDEN, SRE, FORBIDDEN, FORBIDDEN, FORBIDDEN, FORBIDDEN, FORBIDDEN, PDE, EIGHT(PDE),
     MRS, REF, PRE, ACT, WR, RD, ZQ, NOP, EIGHT(NOP)},
    {EIGHT(NOP), EIGHT(NOP), SEVEN_FORBIDDEN, PDX, EIGHT(PDX)},
};

static INLINE int breaks(struct judge *j, struct record r)
{
    struct bank *b = &j->bank[r.ba];
    if (r.edge >= j->soonest && deadline_breaks(j, r))
        return 1;
    switch (r.command) {
    case RD: case WR: return column(j, b, r);
    case ACT: return activate(j, b, r);
    case PRE: return (r.a & A10) != 0 ? precharge_all(j, r) : precharge(j, b, r);
    case NOP: return 0;
    case REF: return refresh(j, r);
    case MRS: return set_mode(j, r);
    case ZQ: return calibrate(j, r);
    case SRE: return fall_asleep(j, r);
    case SRX: return wake(j, r);
    case PDE: return power_down(j, r);
    case PDX: return power_up(j, r);
    default: return rules_break(j, r);
    }
}

/* ---- a section */

/* Step and levels; in edition 1 BA too. */
static inline uint32_t first_four(const uint8_t *at)
{
    return (uint32_t)at[0] << 24 | (uint32_t)at[1] << 16 | (uint32_t)at[2] << 8 | at[3];
}

/* CKE, CS, RAS, CAS, WE. In edition 2 they stand as RESET, CKE, CS, CS of the second rank, ODT, RAS, CAS, WE. */
static inline unsigned levels_of(uint32_t four, int wide, unsigned rank)
{
    return wide ? (four >> 6 & 1) << 4 | (four >> (5 - rank) & 1) << 3 | (four & 7) : four >> 3 & 31;
}

static inline unsigned bank_of(uint32_t four, const uint8_t *at, int wide)
{
    return wide ? at[4] >> 5 : four & 7;
}

static inline unsigned address_of(const uint8_t *at, int wide)
{
    return wide ? (at[4] & 31u) << 11 | (unsigned)at[5] << 3 | at[6] >> 5 : (unsigned)at[4] << 8 | at[5];
}

/* Judges up to the end or to the first break, then only counts. 6 where a step is 0, 14 where a zero bit is 1, with a state
 * that is of no use. */
static INLINE int take(struct judge *j, const uint8_t *at, const uint8_t *end, int wide, unsigned rank)
{
    const size_t size = wide ? EIGHT_BYTES : SIX;
    int64_t edge = j->edge;
    uint32_t number = j->count;
    unsigned spare = 0;
    int broken = j->first.broken;
    while (at < end && !broken) {
        uint32_t four = first_four(at);
        struct record r;
        if (four >> 8 == 0)
            return 6;
        if (wide)
            spare |= (at[6] & 31u) | at[7];
        r.command = (enum command)COMMAND[j->mode][levels_of(four, wide, rank)];
        r.ba = bank_of(four, at, wide);
        r.a = address_of(at, wide);
        r.edge = edge += four >> 8;
        r.number = ++number;
        at += size;
        broken = breaks(j, r);
    }
    number += (uint32_t)((size_t)(end - at) / size);
    for (; at < end; at += size) {
        uint32_t step = first_four(at) >> 8;
        if (step == 0)
            return 6;
        if (wide)
            spare |= (at[6] & 31u) | at[7];
        edge += step;
    }
    j->edge = edge;
    j->count = number;
    return spare != 0 ? 14 : 0;
}

/* ---- calls */

int judge_open(struct judge *j, const uint8_t *header, size_t length)
{
    struct mark none = {LONG_AGO, 0, 0};
    struct column no_column = {LONG_AGO, {0, 0, 0, 0}, 0};
    struct bank idle = {LONG_AGO, NEVER, LONG_AGO, LONG_AGO, none, {no_column, no_column}, 0, 0, 0};
    struct header h;
    int i, refused = length != SIX ? 1 : read_header(&h, header);
    if (refused)
        return refused;
    memset(j, 0, sizeof *j);
    j->header = h;
    count_clocks(&j->t, &h);
    for (i = 0; i < BANKS; i++)
        j->bank[i] = idle;
    for (i = 0; i < 4; i++)
        j->acts[i] = none;
    j->ref = j->mrs = j->zq = j->reset = j->woke = j->slept = none;
    j->changed = j->entry = j->left = j->slow = j->auto_write = none;
    j->quiet = j->set_from = j->column_from[WRITE] = LONG_AGO;
    j->act_from = j->column_from[READ] = NEVER;
    j->mode = AWAKE;
    j->debt_due = MOST_DEBT * (int64_t)j->t.refi;
    j->gap_due = j->t.stay + 1;
    j->soonest = sooner(j->debt_due, j->t.most_ras + 1);
    return 0;
}

int judge_records(struct judge *j, const uint8_t *bytes, size_t length)
{
    return take(j, bytes, bytes + length, 0, 0);
}

int judge_wide_records(struct judge *j, const uint8_t *bytes, size_t length, unsigned rank)
{
    return rank == 0 ? take(j, bytes, bytes + length, 1, 0) : take(j, bytes, bytes + length, 1, 1);
}

int judge_close(const struct judge *j, int64_t end, struct verdict *verdict)
{
    struct judge last = *j;
    struct verdict clean = {0, 0, j->count, 0, end, 0, 0};
    struct deadline soonest = soonest_deadline(j);
    if (end < j->edge || (uint64_t)end > GREATEST_END)
        return 8;
    if (!last.first.broken && soonest.at <= end)
        say_late(&last, soonest);
    *verdict = last.first.broken ? last.first : clean;
    return 0;
}
