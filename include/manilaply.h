/* manilaply: what a C program can call of the DDR3 judge.
 *
 * Link crates/firmware/out/libfirmware.a (`sh tools/machine archive`), which needs memcpy and memset of C
 * and nothing else. No function here keeps state, allocates, or keeps a pointer after it returns.
 *
 * Every function answers 0, or the number of a refusal. A refusal writes no byte. Where several
 * refusals hold, the one that stands first in the function's list is answered.
 *
 * What the caller owes, and no function can check:
 *   - a pointer is valid for as many bytes as the length behind it says: to read, and through
 *     `out` to write;
 *   - `out` overlaps no other slice of the same call;
 *   - a pointer is null only where its length is 0.
 * Numbers may be anything: what is out of range is refused.
 */
#ifndef MANILAPLY_H
#define MANILAPLY_H

/* The standard's types; where there are no headers, as on a bare compiler, the compiler's own.
 * A compiler that cannot tell whether there are can be told, by -DMANILAPLY_NO_HEADERS. */
#if defined(__has_include) && !defined(MANILAPLY_NO_HEADERS)
#if !__has_include(<stdint.h>) || !__has_include(<stddef.h>)
#define MANILAPLY_NO_HEADERS
#endif
#endif

#ifdef MANILAPLY_NO_HEADERS
typedef __UINT8_TYPE__ uint8_t;
typedef __UINT16_TYPE__ uint16_t;
typedef __UINT32_TYPE__ uint32_t;
typedef __UINT64_TYPE__ uint64_t;
typedef __SIZE_TYPE__ size_t;
#else
#include <stddef.h>
#include <stdint.h>
#endif

#ifdef __cplusplus
extern "C" {
#endif

/* The verdict on a whole recording: six header bytes, then six bytes a record, in edition 2 eight, closed at
 * the edge end.
 *
 * A record of edition 1 has step 24 bits, CKE, CS, RAS, CAS, WE 1 each, BA 3, A15 to A0 16; one of edition 2 step 24,
 * RESET, CKE, CS of the first rank, CS of the second, ODT, RAS, CAS, WE 1 each, BA 3, A15 to A0 16, zero 13. Each
 * rank of edition 2 is judged by itself: it sees every record, with its own CS. RESET and ODT are not judged.
 *
 * Writes 20 bytes to the start of out, in edition 2 40, the first rank's 20 and then the second's; numbers most
 * significant byte first:
 *   outcome 1 byte (0 clean, 1 broken), rule 1, record 3, partner 3, edge 6, needed 3, found 3
 * Clean: record is the number of records, edge is end, the rest 0. Broken: the first broken edge and
 * the lowest of the 31 rules broken there; record is the number of the record that breaks it (from 1),
 * and 0 for rules 24, 25, 28 and 31, which are deadlines, also where a record stands at that edge; partner is
 * that of the earlier record that proves it (0: none); needed and found are clocks, of rule 31 those of the
 * awake clock, which stands still in self-refresh, but for rule 3 on an MRS: there needed is 0 and found
 * the refused bit, as manilaply_register tells it. Bytes of out after these keep their values.
 *
 * Answers 0, or the first of
 *    9   out_len is below 20, or below 40 where the first four bits of the recording are 2, however short it is
 *    1   recording_len is below 6
 *    2   the header's edition is neither 1 nor 2
 *    3   a zero field of the header is not zero
 *    4   the period is under the bin's least, or over 3300 ps
 *    5   recording_len less 6 is not a multiple of 6, in edition 2 of 8
 *    7   there are more than 1,048,576 records
 *    6   some record's step is 0
 *   14   a zero bit of some record of edition 2 is not zero
 *    8   end is before the last record's edge, or above 2^44
 */
uint32_t manilaply_judge(const uint8_t *recording, size_t recording_len, uint64_t end, uint8_t *out,
                         size_t out_len);

/* A whole recording of edition 1 as one of edition 2: the header's first four bits become 2, and each record gets
 * RESET 1, the second CS 1, ODT 0 and the zero bits. manilaply_narrow gives the same bytes back.
 *
 * Writes 6 bytes and 8 a record to the start of out. Bytes of out after these keep their values.
 *
 * Answers 0, or the first of
 *    1   recording_len is below 6
 *    2   the header's edition is not 1
 *    3   a zero field of the header is not zero
 *    4   the period is under the bin's least, or over 3300 ps
 *    5   recording_len less 6 is not a multiple of 6
 *    7   there are more than 1,048,576 records
 *    6   some record's step is 0
 *    9   out_len is below 6 and 8 a record
 */
uint32_t manilaply_widen(const uint8_t *recording, size_t recording_len, uint8_t *out, size_t out_len);

/* A whole recording of edition 2 as one of edition 1, where every record has RESET 1, the second CS 1 and ODT 0. These
 * and the zero bits are left out; manilaply_widen gives the same bytes back.
 *
 * Writes 6 bytes and 6 a record to the start of out. Bytes of out after these keep their values.
 *
 * Answers 0, or the first of
 *    1   recording_len is below 6
 *    2   the header's edition is not 2
 *    3   a zero field of the header is not zero
 *    4   the period is under the bin's least, or over 3300 ps
 *    5   recording_len less 6 is not a multiple of 8
 *    7   there are more than 1,048,576 records
 *    6   some record's step is 0
 *   14   a zero bit of some record is not zero
 *   13   some record has RESET 0, the second CS 0 or ODT 1
 *    9   out_len is below 6 and 6 a record
 */
uint32_t manilaply_narrow(const uint8_t *recording, size_t recording_len, uint8_t *out, size_t out_len);

/* What a mode register's code says under the header of a recording of edition 1; one of edition 2 is read with its first
 * four bits set to 1.
 *
 * Writes 6 bytes to the start of out, CL, WR and CWL in clocks and any other field as its bits:
 *   number 0, MR0   A1A0, A3, CL, A8, WR, A12
 *   number 1, MR1   A4A3, A1, A9A6A2, A11, A12, 0
 *   number 2, MR2   CWL, A6, A7, A10A9, A2..A0, 0
 *   number 3, MR3   0, 0, 0, 0, 0, 0
 * Bytes of out after these keep their values.
 *
 * Answers 0, or the first of
 *    9   out_len is below 6
 *    1   header_len is not 6
 *    2   the header's edition is not 1
 *    3   a zero field of the header is not zero
 *    4   the period is under the bin's least, or over 3300 ps
 *   11   number is above 3, or the header does not allow the code; what is answered is then
 *        11 + 256 * bit: the lowest address bit of a field that is not allowed, 16 where number is above 3.
 *        Each bit that must be 0 is a field of its own; the others, by their lowest bit:
 *          MR0   0 A1A0, 2 CL, 9 WR
 *          MR1   2 A9A6A2, 3 A4A3, 11 A11 on x16
 *          MR2   3 CWL, 6 A6 with A7, 9 A10A9
 */
uint32_t manilaply_register(const uint8_t *header, size_t header_len, uint32_t number, uint16_t code,
                            uint8_t *out, size_t out_len);

/* The order in which a burst's words come.
 *
 * length is 8 or 4, start 0 to 7. type 0 is sequential, any other number interleave; direction 0 is
 * a read, any other number a write. Writes a byte for each word, 8 or 4, to the start of out: the
 * place of the word that comes first, then of the second, and so on. Bytes of out after these keep
 * their values.
 *
 * Answers 0, or the first of
 *   10   length is neither 4 nor 8, or start is above 7
 *    9   out_len is below length
 */
uint32_t manilaply_burst(uint32_t length, uint32_t start, uint32_t type, uint32_t direction,
                         uint8_t *out, size_t out_len);

#ifdef __cplusplus
}
#endif

#endif
