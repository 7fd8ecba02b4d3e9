/* The rules that are no deadline at a record, the lowest first, asked where a kept edge says that one of them may be broken.
 * Of each kind of earlier record only the latest is looked at: in a recording that is clean so far, no older one asks for a
 * later edge. A WR with auto precharge is a kind of its own, and so is an exit that rule 30 counts from. */
#include "judge.h"

void say(struct judge *j, int rule, uint32_t record, uint32_t partner, int64_t needed, int64_t found)
{
    struct verdict v = {1, rule, record, partner, j->edge, needed, found};
    j->first = v;
}

static int without_clocks(struct judge *j, int rule, uint32_t partner)
{
    say(j, rule, j->count, partner, 0, 0);
    return 1;
}

/* What no record was yet lies far back, and no spacing from it is too short. */
static int soon_after(struct judge *j, int rule, int64_t at, uint32_t number, int64_t needed)
{
    int64_t found = j->edge - at;
    if (found >= needed)
        return 0;
    say(j, rule, j->count, number, needed, found);
    return 1;
}

static int soon_for(struct judge *j, int rule, const struct mark *m, int64_t needed)
{
    return soon_after(j, rule, m->at, m->number, needed);
}

static int soon(struct judge *j, int rule, const struct mark *m)
{
    return soon_for(j, rule, m, m->need);
}

static const struct column *latest(const struct judge *j, enum direction d)
{
    return &j->bank[j->latest[d]].column[d];
}

static const struct mark *latest_act(const struct judge *j)
{
    return &j->acts[(j->oldest + 3) % 4];
}

/* ---- rule 2 */

static int is_open(const struct bank *b)
{
    return b->start == NEVER;
}

static int is_closing(const struct judge *j, const struct bank *b)
{
    return !is_open(b) && b->start > j->edge;
}

static int not_idle(struct judge *j, const struct bank *b)
{
    return b->start > j->edge && without_clocks(j, 2, b->act.number);
}

static int not_all_idle(struct judge *j)
{
    int i;
    for (i = 0; i < BANKS; i++)
        if (not_idle(j, &j->bank[i]))
            return 1;
    return 0;
}

static int not_open(struct judge *j, const struct bank *b)
{
    return !is_open(b) && without_clocks(j, 2, is_closing(j, b) ? b->act.number : 0);
}

static int closing(struct judge *j, const struct bank *b)
{
    return is_closing(j, b) && without_clocks(j, 2, b->act.number);
}

/* ---- spacings that several commands have in common */

static int soon_after_start(struct judge *j, const struct bank *b)
{
    return soon_after(j, 5, b->start, b->shut_by, j->t.rp);
}

static int soon_after_any_start(struct judge *j)
{
    const struct bank *last = j->bank;
    int i;
    for (i = 1; i < BANKS; i++) {
        const struct bank *b = &j->bank[i];
        if (b->start > last->start || (b->start == last->start && b->shut_by > last->shut_by))
            last = b;
    }
    return soon_after_start(j, last);
}

static int soon_after_read(struct judge *j)
{
    const struct column *read = latest(j, READ);
    return soon_after(j, 19, read->at, read->number, read->needs.set);
}

static int soon_after_same(struct judge *j, enum direction d)
{
    const struct column *same = latest(j, d);
    return soon_after(j, 12, same->at, same->number, SAME_TO_SAME);
}

static int soon_after_other(struct judge *j, int rule, enum direction d)
{
    const struct column *other = latest(j, d);
    return soon_after(j, rule, other->at, other->number, other->needs.other);
}

/* ---- commands */

static int activate(struct judge *j, const struct bank *b)
{
    if (not_idle(j, b))
        return 1;
    if ((j->written & ALL_WRITTEN) != ALL_WRITTEN)
        return without_clocks(j, 3, 0);
    return soon_after_start(j, b) || soon_for(j, 6, &b->act, j->t.rc) || soon_for(j, 7, latest_act(j), j->t.rrd) ||
           soon_for(j, 8, &j->acts[j->oldest], j->t.faw) || soon(j, 15, &j->ref) || soon(j, 17, &j->mrs) ||
           soon(j, 18, &j->zq) || soon(j, 21, &j->woke) || soon(j, 29, &j->left);
}

static int read_column(struct judge *j, const struct bank *b)
{
    if (not_open(j, b))
        return 1;
    if ((j->written & DLL_RESET) == 0)
        return without_clocks(j, 3, 0);
    return soon(j, 4, &b->act) || soon_after_same(j, READ) || soon_after_other(j, 14, WRITE) || soon(j, 15, &j->ref) ||
           soon(j, 17, &j->mrs) || soon(j, 18, &j->zq) || soon(j, 20, &j->reset) || soon(j, 21, &j->woke) ||
           soon(j, 29, &j->left) || soon(j, 30, &j->slow);
}

static int write_column(struct judge *j, const struct bank *b)
{
    return not_open(j, b) || soon(j, 4, &b->act) || soon_after_same(j, WRITE) || soon_after_other(j, 13, READ) ||
           soon(j, 15, &j->ref) || soon(j, 17, &j->mrs) || soon(j, 18, &j->zq) || soon(j, 21, &j->woke) ||
           soon(j, 29, &j->left);
}

static int precharge_after(struct judge *j, const struct mark *act, const struct column *read, const struct column *wrote)
{
    return soon_for(j, 9, act, j->t.ras) || soon_after(j, 10, read->at, read->number, read->needs.pre) ||
           soon_after(j, 11, wrote->at, wrote->number, wrote->needs.pre) || soon(j, 15, &j->ref) ||
           soon(j, 17, &j->mrs) || soon(j, 18, &j->zq) || soon(j, 21, &j->woke) || soon(j, 29, &j->left);
}

static int precharge(struct judge *j, const struct bank *b)
{
    return closing(j, b) || precharge_after(j, &b->act, &b->column[READ], &b->column[WRITE]);
}

static int precharge_all(struct judge *j)
{
    int i;
    for (i = 0; i < BANKS; i++)
        if (closing(j, &j->bank[i]))
            return 1;
    return precharge_after(j, latest_act(j), latest(j, READ), latest(j, WRITE));
}

static int refresh_or_calibrate(struct judge *j)
{
    return not_all_idle(j) || soon_after_any_start(j) || soon(j, 15, &j->ref) || soon(j, 17, &j->mrs) ||
           soon(j, 18, &j->zq) || soon(j, 21, &j->woke) || soon(j, 29, &j->left);
}

static int not_allowed(struct judge *j, int bit)
{
    if (bit == NO_BIT)
        return 0;
    say(j, 3, j->count, 0, 0, bit);
    return 1;
}

static int set_mode(struct judge *j, unsigned number, unsigned code)
{
    if (not_all_idle(j) || not_allowed(j, bad_bit(&j->header, &j->t, number, code)))
        return 1;
    return soon_after_any_start(j) || soon(j, 15, &j->ref) || soon_for(j, 16, &j->mrs, MRS_TO_MRS) ||
           soon(j, 18, &j->zq) || soon_after_read(j) || soon(j, 21, &j->woke) || soon(j, 29, &j->left);
}

static int enter_self_refresh(struct judge *j)
{
    return not_all_idle(j) || soon_after_any_start(j) || soon(j, 15, &j->ref) || soon(j, 17, &j->mrs) ||
           soon(j, 18, &j->zq) || soon_after_read(j) || soon(j, 21, &j->woke) ||
           (j->refresh_owed && without_clocks(j, 23, j->woke.number)) || soon(j, 27, &j->changed) ||
           soon(j, 29, &j->left);
}

static struct mark to_entry(const struct column *c)
{
    struct mark m = {c->at, c->number, c->needs.entry};
    return m;
}

/* Rule 26's partner is the latest that breaks it. */
static int soon_to_enter(struct judge *j)
{
    struct mark all[4] = {to_entry(latest(j, READ)), to_entry(latest(j, WRITE)), j->auto_write, j->mrs};
    const struct mark *last = 0;
    int i;
    for (i = 0; i < 4; i++)
        if (j->edge - all[i].at < all[i].need && (!last || all[i].number > last->number))
            last = &all[i];
    return last && soon(j, 26, last);
}

int breaks_a_rule(struct judge *j, enum command command, unsigned ba, unsigned a)
{
    const struct bank *b = &j->bank[ba];
    switch (command) {
    case ACT: return activate(j, b);
    case RD: return read_column(j, b);
    case WR: return write_column(j, b);
    case PRE: return (a & A10) != 0 ? precharge_all(j) : precharge(j, b);
    case REF: case ZQ: return refresh_or_calibrate(j);
    case MRS: return set_mode(j, ba, a);
    case SRE: return enter_self_refresh(j);
    case SRX: return soon(j, 22, &j->slept);
    case PDE: return soon_to_enter(j) || soon(j, 27, &j->changed);
    case PDX: return soon(j, 27, &j->changed);
    case FORBIDDEN: return without_clocks(j, 1, 0);
    default: return 0;
    }
}
