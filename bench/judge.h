/* A judge of DDR3 command recordings of both editions in plain C, to be measured beside the proved one: the same 31 rules,
 * the same refusals, a running state that keeps no record. Written from the rules paper; nothing in it is proved. */
#ifndef BENCH_JUDGE_H
#define BENCH_JUDGE_H

#include <stddef.h>
#include <stdint.h>

enum { BANKS = 8, SIX = 6, EIGHT_BYTES = 8, RANKS = 2, VERDICT_BYTES = 20, MOST_RECORDS = 1048576 };

/* No wait added to these wraps. */
static const int64_t LONG_AGO = -(INT64_C(1) << 60), NEVER = INT64_C(1) << 60;

struct header {
    int edition, bin, density, width, hot, period;
};

/* A header's times in clocks. */
struct counts {
    int32_t rcd, rp, rc, ras, rrd, faw, cke, rtp, wtr, wr, mod, rfc, xs, zq_long, zq_short, most_ras, refi;
    int32_t xp, xpdll, stay;
};

/* The clocks that a RD or WR needs to a PRE of its bank, to a column of the other direction, to a power-down entry, and a
 * RD to MRS or SRE. */
struct needs {
    uint16_t pre, other, set, entry;
};

/* What a RD or WR of one kind leaves under the registers in force. Its own precharge starts at the later of so many clocks
 * from ACT and so many from itself. */
struct kind {
    struct needs needs;
    int32_t start_from_act, start_from_here;
};

/* A record that a rule counts from, its number, the clocks needed. */
struct mark {
    int64_t at;
    uint32_t number;
    int32_t need;
};

struct column {
    int64_t at;
    struct needs needs;
    uint32_t number;
};

enum direction { READ, WRITE };

/* What the part does behind the latest record: in self-refresh, with CKE high, in power-down. */
enum mode { ASLEEP, AWAKE, DOWN };

/* The edges from which the rules that look at the bank alone let ACT, a column and PRE pass. start: of the latest
 * precharge, NEVER while the bank is open; shut_by: its record. late: it starts after rule 24's limit. */
struct bank {
    int64_t act_from, column_from, pre_from, start;
    struct mark act;
    struct column column[2];
    uint32_t shut_by;
    uint16_t row;
    uint16_t late;
};

struct verdict {
    int broken, rule;
    uint32_t record, partner;
    int64_t edge, needed, found;
};

/* Of one rank. */
struct judge {
    struct header header;
    struct counts t;
    int64_t edge;
    uint32_t count;
    enum mode mode;
    int64_t soonest; /* no deadline is sooner */
    int64_t quiet;   /* from here on rules 15, 17, 18, 21 and 29 let every command pass */
    int64_t act_from, column_from[2], set_from; /* as far as the rules look at all banks; NEVER of ACT after an MRS */
    struct kind kind[4]; /* RD with A12 low, RD with A12 high, WR, WR */
    int32_t to_column;
    struct bank bank[BANKS];
    struct mark acts[4]; /* the latest four, the oldest at `oldest` */
    unsigned oldest;
    unsigned latest[2]; /* the bank of the latest RD and of the latest WR */
    struct mark ref, mrs, zq, reset, woke, slept;
    struct mark changed, entry, left, slow; /* CKE's latest change, power-down's entry and exit, the latest that rule 30 counts from */
    struct mark auto_write; /* the latest WR with auto precharge: rule 26 may ask more of it than of a later WR */
    int closed; /* no bank was open at the entry */
    int64_t debt_due, gap_due; /* the edges at which rules 25 and 31 break; while asleep what is left to them */
    unsigned written; /* a bit for each register, and one for a DLL reset */
    uint16_t code[4];
    int refresh_owed;
    struct verdict first;
};

/* judge.c: a rank. Each answers 0 or the number of a refusal; where a section is refused the state is of no use. */
int judge_open(struct judge *j, const uint8_t *header, size_t length);
int judge_records(struct judge *j, const uint8_t *bytes, size_t length);
int judge_wide_records(struct judge *j, const uint8_t *bytes, size_t length, unsigned rank);
int judge_close(const struct judge *j, int64_t end, struct verdict *verdict);

/* All ranks of a recording: one of edition 1, two of edition 2, which see the same records, each with its own CS. */
struct board {
    int ranks;
    struct judge rank[RANKS];
};

/* board.c: each answers 0 or the number of a refusal, and a refused call alters nothing. */
int board_open(struct board *b, const uint8_t *header, size_t length);
int board_section(struct board *b, const uint8_t *bytes, size_t length);
int board_close(const struct board *b, int64_t end, struct verdict *verdicts);
uint32_t judge_whole(const uint8_t *recording, size_t length, uint64_t end, uint8_t *out, size_t out_length);

/* chip.c: the header, its clock counts, the registers. */
int read_header(struct header *h, const uint8_t *six);
void count_clocks(struct counts *t, const struct header *h);
/* The lowest address bit of a field that is not allowed; or that there is no such register, or no such bit. */
enum { NO_REGISTER = 16, NO_BIT = 17 };
int bad_bit(const struct header *h, const struct counts *t, unsigned number, unsigned code);
int32_t act_to_column(const struct counts *t, const uint16_t *code);
void column_kinds(struct kind *kind, const struct counts *t, const uint16_t *code);

/* rules.c: the rules that are no deadline at the latest record; 1 if one is broken, which is then `first`. */
enum command { MRS, REF, PRE, ACT, WR, RD, ZQ, NOP, SRE, SRX, PDE, PDX, FORBIDDEN };
enum { DLL_RESET = 1 << 4, ALL_WRITTEN = 15, DLL_LOCK = 512, MRS_TO_MRS = 4, SAME_TO_SAME = 4, A10 = 1 << 10 };
int breaks_a_rule(struct judge *j, enum command command, unsigned ba, unsigned a) __attribute__((cold));
void say(struct judge *j, int rule, uint32_t record, uint32_t partner, int64_t needed, int64_t found);

#endif
