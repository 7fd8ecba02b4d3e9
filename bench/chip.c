/* The six header bytes, the clock counts, the mode registers. */
#include "judge.h"

/* Picoseconds, a row a bin; pairs are the 1K page and the 2K page. */
static const struct {
    int least_period, rcd, rc, ras, rrd[2], faw[2], cke;
} BINS[4] = {
    {1875, 13125, 50625, 37500, {7500, 10000}, {37500, 50000}, 5625},
    {1500, 13125, 49500, 36000, {6000, 7500}, {30000, 45000}, 5625},
    {1250, 13125, 48750, 35000, {6000, 7500}, {30000, 40000}, 5000},
    {1070, 12840, 47080, 34240, {5000, 6000}, {27000, 35000}, 5000},
};

enum { GREATEST_PERIOD = 3300 };

int read_header(struct header *h, const uint8_t *six)
{
    h->edition = six[0] >> 4;
    if (h->edition != 1 && h->edition != 2)
        return 2;
    if ((six[1] & 0x70) != 0 || six[3] != 0 || six[4] != 0 || six[5] != 0)
        return 3;
    h->bin = six[0] >> 2 & 3;
    h->density = six[0] >> 1 & 1;
    h->width = six[0] & 1;
    h->hot = six[1] >> 7;
    h->period = (six[1] & 15) << 8 | six[2];
    return h->period < BINS[h->bin].least_period || h->period > GREATEST_PERIOD ? 4 : 0;
}

static int32_t up(int period, int time, int32_t least)
{
    int32_t clocks = (time + period - 1) / period;
    return clocks < least ? least : clocks;
}

void count_clocks(struct counts *t, const struct header *h)
{
    int period = h->period, bin = h->bin, refresh = h->density ? 160000 : 110000;
    t->rcd = up(period, BINS[bin].rcd, 0);
    t->rp = t->rcd;
    t->rc = up(period, BINS[bin].rc, 0);
    t->ras = up(period, BINS[bin].ras, 0);
    t->rrd = up(period, BINS[bin].rrd[h->width], 4);
    t->faw = up(period, BINS[bin].faw[h->width], 0);
    t->cke = up(period, BINS[bin].cke, 3);
    t->rtp = t->wtr = up(period, 7500, 4);
    t->wr = up(period, 15000, 0);
    t->mod = up(period, 15000, 12);
    t->rfc = up(period, refresh, 0);
    t->xs = up(period, refresh + 10000, 5);
    t->zq_long = up(period, 320000, 256);
    t->zq_short = up(period, 80000, 64);
    t->most_ras = (h->hot ? 35100000 : 70000000) / period;
    t->refi = (h->hot ? 3900000 : 7800000) / period;
    t->xp = up(period, bin == 0 ? 7500 : 6000, 3);
    t->xpdll = up(period, 24000, 10);
    t->stay = 9 * t->refi;
}

/* By A6A5A4A2; 0 is no latency. */
static const int CL[16] = {0, 12, 5, 0, 6, 0, 7, 0, 8, 0, 9, 0, 10, 0, 11, 0};
static const int WRITE_RECOVERY[8] = {16, 5, 6, 7, 8, 10, 12, 14};

static int cl_of(unsigned code)
{
    return CL[(code >> 4 & 7) << 1 | (code >> 2 & 1)];
}

static int cl_allowed(const struct header *h, int cl)
{
    int p = h->period;
    switch (cl) {
    case 5: return p >= 3000 && h->bin != 3;
    case 6: return p >= 2500;
    case 7: case 8: return p >= 1875 && p < 2500;
    case 9: case 10: return p >= 1500 && p < 1875 && h->bin != 0;
    case 11: return p >= 1250 && p < 1500 && h->bin >= 2;
    case 12: return p < 1250 && h->bin == 3;
    default: return 0;
    }
}

static int cwl_of_period(int p)
{
    return p >= 2500 ? 5 : p >= 1875 ? 6 : p >= 1500 ? 7 : p >= 1250 ? 8 : 9;
}

/* The lowest bit of each field that is not allowed. */
static unsigned wrong_fields(const struct header *h, const struct counts *t, unsigned number, unsigned code)
{
    switch (number) {
    case 0:
        return (code & 0xE080) | ((code & 3) == 3) << 0 | !cl_allowed(h, cl_of(code)) << 2 |
               (WRITE_RECOVERY[code >> 9 & 7] < t->wr) << 9;
    case 1:
        return (code & 0xE5A1) | ((code & 0x0240) == 0x0240) << 2 | ((code & 0x0018) == 0x0018) << 3 |
               (h->width != 0 ? code & 0x0800 : 0);
    case 2:
        return (code & 0xF900) | ((int)(code >> 3 & 7) + 5 != cwl_of_period(h->period)) << 3 |
               ((code & 0x00C0) == 0x00C0) << 6 | ((code & 0x0600) == 0x0600) << 9;
    case 3: return code;
    default: return 1 << NO_REGISTER;
    }
}

int bad_bit(const struct header *h, const struct counts *t, unsigned number, unsigned code)
{
    unsigned wrong = wrong_fields(h, t, number, code);
    return wrong == 0 ? NO_BIT : __builtin_ctz(wrong);
}

static int al_of(const uint16_t *code)
{
    int under = code[1] >> 3 & 3;
    return under == 0 ? 0 : cl_of(code[0]) - under;
}

int32_t act_to_column(const struct counts *t, const uint16_t *code)
{
    int32_t clocks = t->rcd - al_of(code);
    return clocks < 1 ? 1 : clocks;
}

/* half: half of the words of a burst. */
static void read_kind(struct kind *kind, const struct counts *t, const uint16_t *code, int half)
{
    int al = al_of(code), cl = cl_of(code[0]), cwl = (code[2] >> 3 & 7) + 5;
    kind->needs.pre = (uint16_t)(al + t->rtp);
    kind->needs.other = (uint16_t)(cl - cwl + 2 + half);
    kind->needs.set = (uint16_t)(al + cl + half);
    kind->needs.entry = (uint16_t)(al + cl + 5);
    kind->start_from_act = t->ras;
    kind->start_from_here = al + t->rtp;
}

static void write_kind(struct kind *kind, const struct counts *t, const uint16_t *code, int half)
{
    int cwl = (code[2] >> 3 & 7) + 5, wl = al_of(code) + cwl;
    kind->needs.pre = (uint16_t)(wl + half + t->wr);
    kind->needs.other = (uint16_t)(cwl + half + t->wtr);
    kind->needs.set = 0;
    kind->needs.entry = kind->needs.pre;
    kind->start_from_act = 0;
    kind->start_from_here = wl + half + WRITE_RECOVERY[code[0] >> 9 & 7];
}

/* A burst is of eight words, of eight or four by A12, or of four; a WR by A12 counts as one of eight. */
void column_kinds(struct kind *kind, const struct counts *t, const uint16_t *code)
{
    int mode = code[0] & 3;
    read_kind(&kind[0], t, code, mode == 0 ? 4 : 2);
    read_kind(&kind[1], t, code, mode == 2 ? 2 : 4);
    write_kind(&kind[2], t, code, mode == 2 ? 2 : 4);
    kind[3] = kind[2];
}
