/* Thaksipho: qubit reuse for quantum circuits, proved. The calls of libthaksipho.a.
 *
 * The archive is written by `tests/build thaksipho` to target/staticlib, for Linux on x86-64. It needs
 * memcpy and memset and nothing else. examples/compile_a.c is a whole program.
 *
 * WHO OWNS WHAT. Every buffer is the caller's, before, during and after a call. The library allocates
 * nothing, keeps nothing from one call to the next and has no state, so calls may be made from many
 * threads at once. It reads the buffers that are lent as `const` and writes to `out` alone.
 *
 * WHAT COMES BACK. One 64-bit word. Below 2^32 the call is done and the word is its value, which stands
 * with each call below. Otherwise the input is refused: the word is the refusal's number times 2^32 plus
 * its place. THAKSIPHO_REFUSED, THAKSIPHO_NUMBER and THAKSIPHO_PLACE take it apart.
 *
 * WHAT IS WRITTEN. A call that is done writes its output to the start of `out` and leaves the rest of
 * `out` as it was. A call that refuses writes nothing. Where `out` is too short for the output the refusal
 * is 31, its place is the length needed, and it comes after every other refusal: so a call with a length
 * of 0 asks how much room is needed.
 *
 * WHAT THE CALLER MUST KEEP. The proof says what a call does with the buffers that it is told of. It
 * cannot see, and the caller must keep, that
 *   - each pointer points to as many bytes as its length says, readable, and for `out` writable too.
 *     Where the length is 0 the pointer is not followed and may be NULL;
 *   - `out` overlaps none of the other buffers of the same call (those that are only read may overlap);
 *   - nobody else writes to the buffers, or reads `out`, while the call runs;
 *   - there is stack enough: for thaksipho_compile 21 kilobytes and some more, for the others three
 *     (docs/PERFORMANCE.md has what was measured).
 * All else is answered: any bytes, of any length, are a circuit, a pair list or a table, or are refused.
 *
 * THE NUMBERS. A wire is a line of the static circuit, a qubit a line of the dynamic one, a bit receives
 * one measurement; each is numbered from 0. Places in a circuit are offsets of bytes, and the first fault
 * from the left decides.
 *
 *   No.  Refused because                                       Place
 *    1   the input is empty or does not begin with 01          0
 *    2   a record's body runs past the end                     the record's offset
 *    3   the width is 0 or above 32                            0
 *    4   the kind is none of an instruction                    the record's offset
 *    5   the 2,049th instruction begins                        the record's offset
 *    6   a wire number is not below the width                  the record's offset
 *    7   a gate names one wire twice                           the record's offset
 *    8   the wire is not yet reset                             the record's offset
 *    9   the wire is already reset                             the record's offset
 *   10   the wire is already measured                          the record's offset
 *   11   a bit number is not below the width                   the record's offset
 *   12   the bit is already used                               the record's offset
 *   13   the input ends with a wire not measured               the lowest such wire
 *   20   lender or taker is not below the width                the pair's index
 *   21   the lender already lends                              the pair's index
 *   22   the taker already takes                               the pair's index
 *   23   the pair closes a loop, or is a wire with itself      the pair's index
 *   24   a pair record's kind is not 60                        the pair's index
 *   25   a pair record is cut short                            the pair's index
 *   27   the table's width is 0 or above 32                    0
 *   31   the output needs more room                            the length needed
 *
 * Pairs are judged left to right, each by 24, 25, 20, 21, 22, 23; a single offer has index 0. A call on a
 * table tests 27 first.
 *
 * THE BYTES. A static circuit, a dynamic one and a pair list are records as README.md has them. A table
 * has THAKSIPHO_TABLE_LENGTH bytes: the width, 32 rows of 4 bytes, lowest byte first, in which bit v of
 * row u says that wire u may lend to wire v, the used lenders and the used takers. It may be made by
 * hand: missing bytes count as 0, and further ones are not read.
 */
#ifndef THAKSIPHO_H
#define THAKSIPHO_H

#include <stddef.h>
#include <stdint.h>

#ifdef __cplusplus
extern "C" {
#endif

/* Whether a word refuses, the number of the refusal, and its place. */
#define THAKSIPHO_REFUSED(word) (THAKSIPHO_NUMBER(word) != 0)
#define THAKSIPHO_NUMBER(word) ((unsigned)((uint64_t)(word) >> 32))
#define THAKSIPHO_PLACE(word) ((uint32_t)((uint64_t)(word) & 0xFFFFFFFFu))

/* The bytes of a table, the most wires of a circuit, and room for any list that greedy writes. */
#define THAKSIPHO_TABLE_LENGTH 137
#define THAKSIPHO_MOST_WIRES 32
#define THAKSIPHO_LIST_LENGTH (3 * THAKSIPHO_MOST_WIRES)

/* Reads a static circuit. The value: instructions * 256 + wires. Refusals: 1 to 13. */
uint64_t thaksipho_read(const uint8_t *circuit, size_t circuit_length);

/* Writes the records of a static circuit again: the same bytes. The value: bytes written.
 * Refusals: 1 to 13, 31. */
uint64_t thaksipho_rewrite(const uint8_t *circuit, size_t circuit_length,
                           uint8_t *out, size_t out_length);

/* Writes the dynamic circuit of a static circuit and a list of 60 records, which may be empty. The value:
 * bytes written, one more than the circuit has. Refusals: 1 to 13, then 20 to 25, then 31. */
uint64_t thaksipho_compile(const uint8_t *circuit, size_t circuit_length,
                           const uint8_t *pairs, size_t pairs_length,
                           uint8_t *out, size_t out_length);

/* Writes the table of a static circuit with no pairs accepted. The value: bytes written.
 * Refusals: 1 to 13, 31. */
uint64_t thaksipho_start(const uint8_t *circuit, size_t circuit_length,
                         uint8_t *out, size_t out_length);

/* Whether a wire may lend to another. The value: 1 yes, 0 no. Refusal: 27. */
uint64_t thaksipho_may(const uint8_t *table, size_t table_length, uint8_t lender, uint8_t taker);

/* Offers a pair and writes the table after it. The value: bytes written. Refusals: 27, 20 to 23, 31. */
uint64_t thaksipho_offer(const uint8_t *table, size_t table_length, uint8_t lender, uint8_t taker,
                         uint8_t *out, size_t out_length);

/* How many pairs are yes. The value: the count. Refusal: 27. */
uint64_t thaksipho_count(const uint8_t *table, size_t table_length);

/* How many pairs are yes after accepting one. The value: the count. Refusals: 27, 20 to 23. */
uint64_t thaksipho_score(const uint8_t *table, size_t table_length, uint8_t lender, uint8_t taker);

/* Chooses pairs greedily and writes them as 60 records in the order chosen: a list for compile. The value:
 * trials * 256 + pairs. Refusals: 27, 31. */
uint64_t thaksipho_greedy(const uint8_t *table, size_t table_length, uint8_t *out, size_t out_length);

#ifdef __cplusplus
}
#endif

#endif
