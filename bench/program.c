/* The C judge as a program: a recording on standard input, the header first and then sections of 6,000 bytes, to one line
 * a rank on standard output, as the proved program does it; but it reads several sections at once. With the word `state` it
 * prints the size of its state of one rank. */
#include "judge.h"

#include <inttypes.h>
#include <stdio.h>
#include <unistd.h>

enum { SECTION = 6000, AT_ONCE = 32 * SECTION };

/* As many bytes as there are, up to the length. */
static size_t read_full(uint8_t *bytes, size_t length)
{
    size_t at = 0;
    while (at < length) {
        ssize_t n = read(0, bytes + at, length - at);
        if (n <= 0)
            break;
        at += (size_t)n;
    }
    return at;
}

static int judge_sections(struct board *b, const uint8_t *bytes, size_t length)
{
    int refused = 0;
    size_t at;
    for (at = 0; at < length && !refused; at += SECTION)
        refused = board_section(b, bytes + at, length - at < SECTION ? length - at : SECTION);
    return refused;
}

static struct board board;

static int judge_input(struct verdict *verdicts)
{
    static uint8_t space[AT_ONCE];
    int refused = board_open(&board, space, read_full(space, SIX));
    size_t n = AT_ONCE;
    while (!refused && n == AT_ONCE) {
        n = read_full(space, AT_ONCE);
        refused = judge_sections(&board, space, n);
    }
    return refused ? refused : board_close(&board, board.rank[0].edge, verdicts);
}

static void print(const struct verdict *v)
{
    if (v->broken)
        printf("broken %d %" PRIu32 " %" PRIu32 " %" PRId64 " %" PRId64 " %" PRId64 "\n", v->rule, v->record, v->partner, v->edge,
               v->needed, v->found);
    else
        printf("clean %" PRIu32 " %" PRId64 "\n", v->record, v->edge);
}

int main(int count, char **words)
{
    struct verdict verdicts[RANKS];
    int i, refused;
    (void)words;
    if (count > 1) {
        printf("%zu\n", sizeof(struct judge));
        return 0;
    }
    refused = judge_input(verdicts);
    if (refused)
        printf("refused %d\n", refused);
    for (i = 0; !refused && i < board.ranks; i++)
        print(&verdicts[i]);
    return 0;
}
