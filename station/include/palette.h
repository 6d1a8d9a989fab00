/*
 * Palette blocks for stations: the functions of libstation.a.
 *
 * The archive is written by `rt lib` in crates/station, to crates/station/out. `./sheet` at the
 * repository's top copies it to target/staticlib.
 * Link it with the C library only:  cc station.c -Iinclude target/staticlib/libstation.a
 * Where palette_search_default_env or palette_strip_default_env is used, add -lm.
 *
 * Every function is proved to meet its contract for all values of its arguments, as long as
 *  - a pointer is not NULL, not even where the length beside it is 0,
 *  - it points to as many elements as the length says, or as its array type says,
 *  - what is written to does not overlap with any other argument,
 *  - the calling thread's floating-point environment is the default one, C's FE_DFL_ENV: rounding
 *    to nearest, neither flush-to-zero nor denormals-are-zero, exceptions masked.
 *
 * The last matters for palette_search, palette_strip and palette_estimate alone. palette_pred makes
 * floats of whole numbers below 4096, and palette_costs of sixteenths from 0 to 15, which is exact in
 * every environment; the others have none. A program starts in the default environment unless it is
 * linked with -ffast-math (or -Ofast, or -funsafe-math-optimizations): that sets flush-to-zero and
 * denormals-are-zero, and the search may then find another palette. fesetround and feenableexcept
 * leave it too, and so may a library. Whoever cannot rule that out calls
 * palette_search_default_env, palette_strip_default_env and palette_estimate_default_env.
 *
 * A function that returns uint32_t returns the documents' number: 0 if accepted, else the first
 * of its tests that fails. After a refusal every lent buffer (map, flags, words, values) is as it
 * was, and every other result (context, costs, found, answers, bits, listed, read) is 0 throughout.
 *
 * All functions may be called from several threads at once: they share nothing.
 */
#ifndef PALETTE_H
#define PALETTE_H

#include <fenv.h>
#include <stdbool.h>
#include <stddef.h>
#include <stdint.h>

#ifdef __cplusplus
extern "C" {
#endif

/* The documents' limits, for buffers that are made once. */
#define PALETTE_MAX_SIDE 64
#define PALETTE_MAX_CELLS 4096
#define PALETTE_MAX_LINES 64
#define PALETTE_MAX_STRIP 64
#define PALETTE_MAX_COLORS 8
#define PALETTE_MAX_CACHE 64
#define PALETTE_MAX_WORDS 4234
#define PALETTE_COSTS 301
#define PALETTE_ADAPTED 260

/*
 * Document 01's numbers, and from 19 on document 02's. 17 is given only by programs that read a
 * text, 19 by a strip and by a block report.
 */
#define PALETTE_ACCEPTED 0
#define PALETTE_SIDE 1          /* a side outside 1..64 */
#define PALETTE_DEPTH 2         /* bd outside 8..12 */
#define PALETTE_SAMPLE_COUNT 3  /* sample count not width x height */
#define PALETTE_LAMBDA 4        /* lambda not within 0..2^20, or NaN */
#define PALETTE_COST_TABLE 5    /* cost table not 301 long, or an entry not within 0..32 */
#define PALETTE_SAMPLE 6        /* a sample not within 0..2^bd - 1, or NaN */
#define PALETTE_ROOM 7          /* room for map, values or flags too small */
#define PALETTE_SMALL 8         /* both sides below 16: no palette */
#define PALETTE_ONE_LEVEL 9     /* one level only: no palette */
#define PALETTE_MANY_LEVELS 10  /* more than 32 levels: no palette */
#define PALETTE_BAD_COLORS 11   /* colours not 2..8, not strictly ascending, or above 2^bd - 1 */
#define PALETTE_ORIENTATION 12  /* transposed with a side of 64 */
#define PALETTE_LONG_CACHE 13   /* cache longer than 64 */
#define PALETTE_LENGTHS 14      /* map not width x height, or flags not one per line */
#define PALETTE_BAD_MAP 15      /* index not below n, or a flag that its line does not allow */
#define PALETTE_WORD_ROOM 16    /* word room too small for the list */
#define PALETTE_TEXT 17         /* listing program: text not in its form */
#define PALETTE_NO_CONTEXT 18   /* no context at that cell */
#define PALETTE_BLOCK_COUNT 19  /* strip: no block, more than 64, or half a pair of sides; block
                                   report: more than 9,999 palettes */
#define PALETTE_LIST_END 20     /* the list ends where a word is due */
#define PALETTE_WORD 21         /* kind or first field not the one due, or second beyond range */
#define PALETTE_WORDS_LEFT 22   /* words left over behind the list */
#define PALETTE_NOT_LISTED 23   /* reads to its end, but the listing would not write it */
#define PALETTE_ADAPTED_LENGTH 24  /* adapted table of a length other than 0 or 260 */
#define PALETTE_ADAPTED_ROWS 25    /* its rows do not fall as said below, or unused places not 0 */

/*
 * Whether a block of these sides, in units of four samples, may have a palette: each at most 16,
 * their product at least 4. Writes nothing.
 */
bool palette_block_allowed(size_t bw4, size_t bh4);

/*
 * The context of the cell in row y and column x of a map whose rows are `stride` apart, with n
 * colours. `map` holds `cells` indices; only the neighbours left, above and between are read.
 *
 * Returns 0 or 18. Writes `context`: the context (0 to 4), then eight places with the index at
 * each rank, then eight with the rank of each index. For ranks and indices below n these undo each
 * other; from n upward the places hold 0.
 */
uint32_t palette_context(const uint8_t *map, size_t cells, size_t stride, size_t y, size_t x,
                         size_t n, uint32_t context[17]);

/*
 * Makes the 301 costs that palette_search takes, from a tile's adapted rows: `numbers` of them in
 * `adapted`, which is 260, or 0 for the default rows (then, too, the pointer is not NULL).
 *
 * The rows stand one behind the other: mode 1, size 6, row 4 x 2 (line context), colour 7 x 5 x 7
 * (n from 2, context; n - 1 numbers, then zeros). A row has a number fewer than it has symbols, and
 * falls strictly from at most 32767 to at least 1: a symbol's probability out of 32768 is the
 * number before it less its own, where 32768 stands before the row and 0 after it. Probability p
 * costs c / 16, with c the largest whole number where 2^c p^16 <= 2^240. Places of ranks that n
 * colours do not have cost 0. c is found in whole numbers, and c / 16 is exact in a float: the costs
 * are the same on every machine.
 *
 * Returns 0, or 24, 25, tested in this order. Writes `costs`, each within 0..15, in the order that
 * palette_search takes; it never refuses them by 5.
 */
uint32_t palette_costs(const uint16_t *adapted, size_t numbers, float costs[301]);

/*
 * Finds the palette of a block of width x height samples, row by row, of bd bits each. `lambda`
 * is what a bit weighs beside squared error. `costs` holds 301 costs in bits: mode 2 (none,
 * palette), size 7 (n from 2), row 4 x 3 (line context, flag), colour 7 x 5 x 8 (n from 2,
 * context, rank). The map needs room for width x height indices, the flags for the longer side.
 *
 * Returns 0 or 1 to 10, tested in this order; 8, 9 and 10 mean only that there is no palette.
 * Writes from the front, and nothing behind: `map`, an index for each cell, row by row; `flags`,
 * one for each line, that is height of them, or width if transposed. Writes `found`: n, eight
 * colours with zeros past n, and 1 if transposed, else 0; `bits`: what was counted in bits for
 * mode, size, colours and orientation (the head), then for flags and map. palette_estimate makes
 * one figure of the two.
 *
 * The colours are the rounded means of n groups in a row of the block's levels, which are the
 * samples rounded. The squared distances of all cells' levels from the unrounded means of their
 * groups add up to at most 1/2048 more than those of any other cut of the levels into n groups.
 */
uint32_t palette_search(const float *samples, size_t count, size_t width, size_t height,
                        uint32_t bd, float lambda, const float *costs, size_t entries,
                        uint8_t *map, size_t map_room, uint8_t *flags, size_t flag_room,
                        uint32_t found[10], float bits[2]);

/*
 * palette_search in the default environment, whatever the caller's, which is put back: exceptions
 * noted in it too. It is not in the archive: it is defined here, over <fenv.h>, and needs -lm.
 *
 * It computes with no floats itself, so it does well without #pragma STDC FENV_ACCESS: what has
 * to stay between the calls of fesetenv is a call that the compiler cannot see into. fegetenv and
 * fesetenv cannot fail on x86-64, which is all that the archive is for.
 */
static inline uint32_t palette_search_default_env(
    const float *samples, size_t count, size_t width, size_t height, uint32_t bd, float lambda,
    const float *costs, size_t entries, uint8_t *map, size_t map_room, uint8_t *flags,
    size_t flag_room, uint32_t found[10], float bits[2]) {
    fenv_t caller;
    uint32_t number;
    fegetenv(&caller);
    fesetenv(FE_DFL_ENV);
    number = palette_search(samples, count, width, height, bd, lambda, costs, entries, map,
                            map_room, flags, flag_room, found, bits);
    fesetenv(&caller);
    return number;
}

/*
 * The bit estimate for weighing a block against other ways to code it: (head + map) x 3. It is not
 * the length of the list. Takes any floats.
 */
float palette_estimate(float head, float map);

/* palette_estimate in the default environment, as palette_search_default_env is palette_search. */
static inline float palette_estimate_default_env(float head, float map) {
    fenv_t caller;
    float estimate;
    fegetenv(&caller);
    fesetenv(FE_DFL_ENV);
    estimate = palette_estimate(head, map);
    fesetenv(&caller);
    return estimate;
}

/*
 * Finds the palettes of a strip: up to 64 blocks of one depth. `sides` holds width and height of
 * each block, `numbers` of them, which is twice the count of blocks; `samples` holds the blocks'
 * samples one block after the other, `count` in all. bd, lambda and costs are as palette_search
 * takes them, and for all blocks. A block's map and flags have their places behind those of the
 * block before it: width x height in `map`, the longer side in `flags`. The rooms are for all.
 *
 * Returns 0, or for the strip as a whole 19, 1 if any side is outside 1..64, 3 if `count` is not
 * the sum of width x height, 7 if a room is below the sum of its places, tested in this order.
 * Writes `answers`, eleven numbers a block: its own number, then n, eight colours and orientation
 * as palette_search has them in `found`; and `bits`, two a block: head and map bits. Both are 0 past
 * the last block, and throughout where the strip is refused: look at what is returned first.
 *
 * Where that is 0, each block has the number and the fields, and in its places the map and the
 * flags, that palette_search gives it alone with its samples and exactly its places as rooms. So a
 * fault of bd, lambda or costs is every block's own number. A refused block has 0 in its other
 * fields, its places are as they were, and the other blocks go on.
 */
uint32_t palette_strip(const size_t *sides, size_t numbers, const float *samples, size_t count,
                       uint32_t bd, float lambda, const float *costs, size_t entries,
                       uint8_t *map, size_t map_room, uint8_t *flags, size_t flag_room,
                       uint32_t answers[704], float bits[128]);

/* palette_strip in the default environment, as palette_search_default_env is palette_search. */
static inline uint32_t palette_strip_default_env(
    const size_t *sides, size_t numbers, const float *samples, size_t count, uint32_t bd,
    float lambda, const float *costs, size_t entries, uint8_t *map, size_t map_room,
    uint8_t *flags, size_t flag_room, uint32_t answers[704], float bits[128]) {
    fenv_t caller;
    uint32_t number;
    fegetenv(&caller);
    fesetenv(FE_DFL_ENV);
    number = palette_strip(sides, numbers, samples, count, bd, lambda, costs, entries, map,
                           map_room, flags, flag_room, answers, bits);
    fesetenv(&caller);
    return number;
}

/*
 * Lists the calls of a palette: the first n of eight colours, an index for each cell (`cells` is
 * width x height), a flag for each line (`lines` is height, or width if transposed), and a cache
 * of up to 64 entries of any value. What the search wrote can be handed on as it is.
 *
 * Returns 0, or 1, 2, 11 to 16, tested in this order. Writes `words` from the front, and nothing
 * behind: a word is kind x 2^24 + first x 2^16 + second, with kind 1 bypass (width, value),
 * 2 uniform (n, value), 3 size (0, n-2), 4 row (context, flag), 5 colour ((n-2) x 5 + context,
 * rank). Writes `listed`: the number of words and the raw width, the number of bits that the coder
 * sends as they are. These are the widths of the bypass calls, and for the uniform call 1, 2 or 3
 * bits where n is 2, 4 or 8; where n is 3 it is 1 or 2, where n is 5, 6 or 7 it is 2 or 3, and the
 * smaller values take the fewer bits. PALETTE_MAX_WORDS is always room enough.
 */
uint32_t palette_list(size_t width, size_t height, uint32_t bd, const uint16_t colors[8], size_t n,
                      bool transposed, const uint8_t *map, size_t cells, const uint8_t *flags,
                      size_t lines, const uint16_t *cache, size_t cached, uint32_t *words,
                      size_t room, uint32_t listed[2]);

/*
 * Reads a palette back from its list: `count` words that palette_list wrote with the same sides,
 * depth and cache. The map needs room for width x height indices, the flags for the longer side.
 *
 * Returns 0, or 1, 2, 13, 7, tested in this order; then the number of the earliest faulty word, 20
 * or 21; then 22, then 23. It returns 0 exactly on lists that palette_list writes. Writes from the
 * front, and nothing behind: `map`, an index for each cell, row by row; `flags`, one for each line,
 * that is height of them, or width if transposed. Writes `read`: n, eight colours with zeros past
 * n, and 1 if transposed, else 0. palette_pred takes map and flags as they are.
 */
uint32_t palette_read(size_t width, size_t height, uint32_t bd, const uint16_t *cache,
                      size_t cached, const uint32_t *words, size_t count, uint8_t *map,
                      size_t map_room, uint8_t *flags, size_t flag_room, uint32_t read[10]);

/*
 * The prediction of a palette, which is given as to palette_list.
 *
 * Returns 0, or 1, 2, 11, 12, 14, 15, 7, tested in this order. Writes `values` from the front,
 * and nothing behind: the colour of each cell, row by row, width x height of them.
 */
uint32_t palette_pred(size_t width, size_t height, uint32_t bd, const uint16_t colors[8], size_t n,
                      bool transposed, const uint8_t *map, size_t cells, const uint8_t *flags,
                      size_t lines, float *values, size_t room);

#ifdef __cplusplus
}
#endif

#endif
