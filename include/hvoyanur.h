/* Hvoyanur for C: solves a finite two-player game given as a file's bytes, and writes the file of the exchanged game.
 *
 * Build the library with `tools/static_library`; link target/staticlib/libhvoyanur_c.a (x86-64 Linux).
 *
 * What the caller owes, and nothing tests:
 * - each pointer is valid for as many elements as the length after it says, and aligned for them; it may be NULL only
 *   where that length is 0;
 * - what is lent for writing overlaps neither another row nor the file;
 * - no other thread uses what is lent while the call runs.
 *
 * Everything else is taken: any bytes, any lengths, any allowance. The calls keep nothing between them, allocate
 * nothing, and write only where it is said below. The stack that a call takes is measured in docs/BENCHMARKS.md, 'Stack'.
 */
#ifndef HVOYANUR_H
#define HVOYANUR_H

#include <stddef.h>
#include <stdint.h>

#ifdef __cplusplus
extern "C" {
#endif

/* The most states a game has: each lent row needs so many places, or the answer is refusal 1. */
#define HVOYANUR_MAX_STATES 512

/* The most bytes an accepted file has, and so the most that the exchange writes. */
#define HVOYANUR_MAX_FILE 36874

/* Stands for no start, and in the row of moves for no advice. */
#define HVOYANUR_NONE 65535

/* The word of an answer. */
enum { HVOYANUR_REFUSED = 0, HVOYANUR_YES = 1, HVOYANUR_NO = 2, HVOYANUR_OPEN = 3 };

/* The marks of states. */
enum { HVOYANUR_MARK_NEVER = 0, HVOYANUR_MARK_OPEN = 1, HVOYANUR_MARK_SURE = 2 };

/* Solves the game of a file with at most `allowance` splits of blocks. Returns word * 2^32 + named * 2^16 + splits:
 *
 *   word 1, YES:  side 1 forces its objective from the start `named`, the lowest-numbered sure initial state;
 *   word 2, NO:   side 1 forces it from no start; `named` is 65535;
 *   word 3, OPEN: the allowance was used up before either was known; `named` is 65535;
 *   word 0, refused: `named` is the refusal's number, 1 to 11, and splits is 0. No lent memory is changed.
 *
 * Unless refused, the first places of each row, one for each state, are written, and the rest keep their content:
 * `marks` with 0 never, 1 open, 2 sure; `blocks` with the number of the state's block, its lowest member; `moves` with
 * the winner's move, or 65535 where there is no advice. */
uint64_t hvoyanur_solve(const uint8_t *file, size_t file_len,
                        uint16_t *marks, size_t marks_len,
                        uint16_t *blocks, size_t blocks_len,
                        uint16_t *moves, size_t moves_len,
                        uint16_t allowance);

/* Writes the file of the exchanged game into the first bytes of `out`: turns flipped, the other states as target, reach
 * for stay and stay for reach; the rest of `out` keeps its content. Returns 2^32 + the length written, which is
 * `file_len`; or the refusal's number, 1 to 11, and then all of `out` keeps its content. Refusal 1, `out` is shorter
 * than the file, is tested last. */
uint64_t hvoyanur_exchange(const uint8_t *file, size_t file_len, uint8_t *out, size_t out_len);

/* The parts of what hvoyanur_solve returns. */
static inline unsigned hvoyanur_word(uint64_t answer) { return (unsigned)(answer >> 32); }
static inline unsigned hvoyanur_named(uint64_t answer) { return (unsigned)(answer >> 16 & 0xffff); }
static inline unsigned hvoyanur_splits(uint64_t answer) { return (unsigned)(answer & 0xffff); }

/* Whether hvoyanur_exchange wrote a file, and the length written or else the refusal's number. */
static inline int hvoyanur_written(uint64_t answer) { return answer >> 32 != 0; }
static inline size_t hvoyanur_length(uint64_t answer) { return (size_t)(answer & 0xffffffff); }

#ifdef __cplusplus
}
#endif

#endif
