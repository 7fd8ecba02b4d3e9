/* Judges a short recording from C, and asks for a register's meaning and a burst's order. */
#include "../include/manilaply.h"
#include <stdio.h>

static const uint8_t RECORDING[] = {
    0x14, 0x05, 0xDC, 0x00, 0x00, 0x00, /* header: DDR3-1333, 1 Gb, x8, 1500 ps */
    0x00, 0x00, 0x01, 0x82, 0x00, 0x10, /* record 1, edge 1: MRS, MR2 */
    0x00, 0x00, 0x04, 0x83, 0x00, 0x00, /* record 2, edge 5: MRS, MR3 */
    0x00, 0x00, 0x04, 0x81, 0x00, 0x00, /* record 3, edge 9: MRS, MR1 */
    0x00, 0x00, 0x04, 0x80, 0x0B, 0x50, /* record 4, edge 13: MRS, MR0 with DLL reset */
    0x00, 0x00, 0x0C, 0x9B, 0x01, 0x23, /* record 5, edge 25: ACT, bank 3, row 0123 */
    0x00, 0x01, 0xF4, 0xAB, 0x00, 0x00, /* record 6, edge 525: RD, bank 3 */
    0x00, 0x00, 0x04, 0x93, 0x00, 0x00, /* record 7, edge 529: PRE, bank 3 */
};

static unsigned long number(const uint8_t *bytes, int count)
{
    unsigned long value = 0;
    while (count-- > 0)
        value = value << 8 | *bytes++;
    return value;
}

int main(void)
{
    uint8_t verdict[20], fields[6], words[8];
    uint32_t refused = manilaply_judge(RECORDING, sizeof RECORDING, 529, verdict, sizeof verdict);
    if (refused != 0) {
        printf("refused %lu\n", (unsigned long)refused);
        return 1;
    }
    if (verdict[0] == 0)
        printf("clean: %lu records, end edge %lu\n", number(verdict + 2, 3), number(verdict + 8, 6));
    else
        printf("rule %u is broken by record %lu at edge %lu: %lu clocks needed after record %lu, %lu found\n",
               (unsigned)verdict[1], number(verdict + 2, 3), number(verdict + 8, 6), number(verdict + 14, 3),
               number(verdict + 5, 3), number(verdict + 17, 3));

    if (manilaply_register(RECORDING, 6, 0, 0x0B50, fields, sizeof fields) == 0)
        printf("MR0 0B50: CL %u, write recovery %u\n", (unsigned)fields[2], (unsigned)fields[4]);
    if (manilaply_burst(8, 5, 0, 0, words, sizeof words) == 0)
        printf("a read of eight from 5 begins %u %u %u\n", (unsigned)words[0], (unsigned)words[1], (unsigned)words[2]);
    return 0;
}
