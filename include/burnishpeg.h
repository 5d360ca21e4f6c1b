/* The proved entries of Burnishpeg for C. Link libburnishpeg.a, made by `tools/library`.
 *
 * Every function takes any bytes and any numbers, and keeps nothing. A pointer with a length of 0 may be anything but null.
 * What is lent as `const` is read only. Buffers that one call is given must not overlap, except that two `const` ones may.
 *
 * The answer is one 64-bit number. Refused: bit 63 is set, bits 32 to 39 hold the refusal's number, 1 to 15, and bits 0 to 31 its
 * place, below BURNISHPEG_LONGEST_FILE, as document 01 numbers them; all other bits are 0, and every lent byte is as it came. Accepted:
 * bit 63 is clear and the rest is the value below.
 */
#ifndef BURNISHPEG_H
#define BURNISHPEG_H

#include <stddef.h>
#include <stdint.h>

#define BURNISHPEG_REFUSED(answer) ((int)((answer) >> 63))
#define BURNISHPEG_NUMBER(answer) ((unsigned)((answer) >> 32 & 0xff))
#define BURNISHPEG_PLACE(answer) ((uint32_t)(answer))

#define BURNISHPEG_LONGEST_FILE 9192
#define BURNISHPEG_LONGEST_TABLES 34816
#define BURNISHPEG_LONGEST_TRAIL 62
#define BURNISHPEG_LONGEST_REPORT 23867

/* What is down: nothing; the link with this number; the node with this number. Any other kind is refusal 11. */
#define BURNISHPEG_NOTHING 0
#define BURNISHPEG_LINK 1
#define BURNISHPEG_NODE 2

#ifdef __cplusplus
extern "C" {
#endif

/* From a graph's file to a set's file. Value: the length written at the front of `out`. Refusals 1 to 8, 13, 11, 9, 10, 14. */
uint64_t burnishpeg_build(const uint8_t *graph, size_t graph_len, uint8_t cap, uint8_t *out, size_t out_len);

/* The tables of a set's file. Value: the length written at the front of `tables`. Refusals 1 to 8, 13, 14. */
uint64_t burnishpeg_tables(const uint8_t *file, size_t file_len, uint8_t *tables, size_t tables_len);

/* One step of a packet by the tables that are lent, as they are. Value: bits 0 to 7 how it stands (0 moved, 1 delivered,
 * 2 dropped), bits 8 to 15 the letter of its change of topology (45, a dash: none), then a byte each: its place, destination,
 * topology. Refusals 1 to 6, 13, 11, 12, 14, 15. */
uint64_t burnishpeg_step(const uint8_t *file, size_t file_len, const uint8_t *tables, size_t tables_len, uint8_t place,
                         uint8_t destination, uint8_t topology, uint8_t failure, uint16_t failed);

/* A packet's run from a source to its destination. Value: bits 0 to 7 how it ended (1 delivered, 2 dropped), then a byte each:
 * its hops, its last topology, the letter of its change (45: none). The tables are left at the front of `tables`, the nodes
 * visited, hops + 1 of them, at the front of `trail`. Refusals 1 to 8, 13, 11, 12, 14. */
uint64_t burnishpeg_run(const uint8_t *file, size_t file_len, uint8_t source, uint8_t destination, uint8_t failure,
                        uint16_t failed, uint8_t *tables, size_t tables_len, uint8_t *trail, size_t trail_len);

/* The report's text. Value: the length written at the front of `text`. Refusals 1 to 8, 13, 14 where text_len is under the text's
 * length. BURNISHPEG_LONGEST_REPORT bytes are enough for every set. */
uint64_t burnishpeg_report(const uint8_t *file, size_t file_len, uint8_t *text, size_t text_len);

/* Takes in a file, of a set or of a graph alone, into lists: link ends, link weights, homes, backup weights. Value: n in bits 0 to 7,
 * m in 8 to 23, k in 24 to 31 (0: a graph alone), wmax in 32 to 47. What is accepted meets every rule, those of the backup topologies
 * among them. Refusals 1 to 8, 14. */
uint64_t burnishpeg_read(const uint8_t *file, size_t file_len, uint8_t *a, size_t a_len, uint8_t *b, size_t b_len,
                         uint16_t *weights, size_t weights_len, uint8_t *homes, size_t homes_len, uint16_t *rows,
                         size_t rows_len);

/* Lists into a file that can be taken in again. Value: the length written at the front of `out`. Refusals 3, 1 for a short list, 4 to 8,
 * 14. */
uint64_t burnishpeg_write(uint8_t n, uint16_t m, uint8_t k, uint16_t wmax, const uint8_t *a, size_t a_len, const uint8_t *b,
                          size_t b_len, const uint16_t *weights, size_t weights_len, const uint8_t *homes, size_t homes_len,
                          const uint16_t *rows, size_t rows_len, uint8_t *out, size_t out_len);

#ifdef __cplusplus
}
#endif

#endif
