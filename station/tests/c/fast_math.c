/*
 * The search in a program that is linked with -ffast-math, so that subnormal numbers are taken
 * for 0: by itself, and in the default environment, of a block and of a strip; and the making of
 * costs by itself. It compiles as C and as C++.
 *
 * The compiler may reckon without subnormal numbers here, so they are made and compared by bits.
 */
#include "palette.h"

#include <stdio.h>
#include <string.h>
#include <xmmintrin.h>

static int wrong = 0;

static void check(bool holds, int line, const char *what) {
    if (!holds) {
        printf("line %d: %s\n", line, what);
        wrong++;
    }
}

#define CHECK(what) check((what), __LINE__, #what)

/* Of the register MXCSR. */
#define FLUSH_TO_ZERO 0x8000u
#define DENORMALS_ARE_ZERO 0x0040u
#define BOTH (FLUSH_TO_ZERO | DENORMALS_ARE_ZERO)
#define EXCEPTION_MASKS 0x1f80u

/* The least negative number there is, and a cost of about 1e-40. */
#define LEAST 0x80000001u
#define TINY 0x000116c2u

typedef uint32_t search_function(const float *, size_t, size_t, size_t, uint32_t, float,
                                 const float *, size_t, uint8_t *, size_t, uint8_t *, size_t,
                                 uint32_t *, float *);

/* What a search takes and gives: one or two rows of 16. */
typedef struct {
    size_t height;
    float samples[32], lambda, costs[PALETTE_COSTS];
    uint8_t map[32], flags[16];
    uint32_t found[10];
    float bits[2];
} searched;

/* The smallest block seen that has other colours where subnormal numbers are taken for 0. */
static searched smallest(void) {
    searched block;
    memset(&block, 0, sizeof block);
    block.height = 1;
    for (int i = 0; i < 16; i++) block.samples[i] = 16;
    block.samples[0] = 18.5f;
    block.samples[1] = block.samples[6] = block.samples[13] = 17.75f;
    return block;
}

static uint32_t number(search_function *search, searched *s) {
    return search(s->samples, 16 * s->height, 16, s->height, 8, s->lambda, s->costs,
                  PALETTE_COSTS, s->map, 32, s->flags, 16, s->found, s->bits);
}

/* The block as the second of a strip, behind one of a single sample. */
static uint32_t in_strip(const float *samples, size_t count, size_t width, size_t height,
                         uint32_t bd, float lambda, const float *costs, size_t entries,
                         uint8_t *map, size_t map_room, uint8_t *flags, size_t flag_room,
                         uint32_t found[10], float bits[2]) {
    const size_t sides[4] = {1, 1, width, height};
    float both[1 + 32], pairs[2 * PALETTE_MAX_STRIP];
    uint8_t maps[1 + 32], lines[1 + 16];
    uint32_t answers[11 * PALETTE_MAX_STRIP];
    memset(both, 0, sizeof both), memset(maps, 0, sizeof maps), memset(lines, 0, sizeof lines);
    memcpy(both + 1, samples, count * sizeof *samples);
    CHECK(palette_strip_default_env(sides, 4, both, 1 + count, bd, lambda, costs, entries, maps,
                                    1 + map_room, lines, 1 + flag_room, answers, pairs) ==
          PALETTE_ACCEPTED);
    memcpy(map, maps + 1, map_room), memcpy(flags, lines + 1, flag_room);
    memcpy(found, answers + 12, 10 * sizeof *found), memcpy(bits, pairs + 2, 2 * sizeof *bits);
    return answers[11];
}

/* Three colours: 21 bits for them and 2 for the map, an estimate of 69. */
static bool right(search_function *search) {
    static const uint32_t due[10] = {3, 16, 18, 19, 0, 0, 0, 0, 0, 0};
    static const uint32_t counted[3] = {0x41a80000, 0x40000000, 0x428a0000};
    searched block = smallest();
    float figures[3];
    uint32_t answer = number(search, &block);
    memcpy(figures, block.bits, sizeof block.bits);
    figures[2] = palette_estimate_default_env(figures[0], figures[1]);
    return answer == PALETTE_ACCEPTED && memcmp(block.found, due, sizeof due) == 0 &&
           memcmp(figures, counted, sizeof counted) == 0;
}

static void put(float *place, uint32_t bits) { memcpy(place, &bits, sizeof bits); }

static uint32_t least_sample(search_function *search) {
    searched block = smallest();
    put(&block.samples[7], LEAST);
    return number(search, &block);
}

static uint32_t least_cost(search_function *search) {
    searched block = smallest();
    put(&block.costs[150], LEAST);
    return number(search, &block);
}

static uint32_t least_lambda(search_function *search) {
    searched block = smallest();
    put(&block.lambda, LEAST);
    return number(search, &block);
}

/* Two rows of one level each: whether the second is flagged, a subnormal cost decides. */
static bool tiny_cost_counts(search_function *search) {
    searched block = smallest();
    block.height = 2;
    block.lambda = 1;
    for (int i = 0; i < 32; i++) block.samples[i] = i < 16 ? 10 : 20;
    put(&block.costs[9 + 3 + 1], TINY);
    return number(search, &block) == PALETTE_ACCEPTED && block.flags[0] == 1 &&
           block.flags[1] == 0;
}

/*
 * By itself the search tells signs, levels and narrowed errors by their bits. What it adds up
 * is still the environment's: tiny_cost_counts is asked of the default one only.
 */
static void direct(void) {
    CHECK(right(palette_search));
    CHECK(least_sample(palette_search) == PALETTE_SAMPLE);
    CHECK(least_cost(palette_search) == PALETTE_COST_TABLE);
    CHECK(least_lambda(palette_search) == PALETTE_LAMBDA);
}

/* The default costs in this environment. */
static void make(uint32_t made[PALETTE_COSTS]) {
    static const uint16_t none[1] = {0};
    float costs[PALETTE_COSTS];
    CHECK(palette_costs(none, 0, costs) == PALETTE_ACCEPTED);
    memcpy(made, costs, sizeof costs);
}

static uint32_t costs_made_first[PALETTE_COSTS];

/* The costs are exact, so they are the same in every environment, by themselves. */
static void same_costs(void) {
    uint32_t made[PALETTE_COSTS];
    const unsigned before = _mm_getcsr();
    make(made);
    CHECK(memcmp(made, costs_made_first, sizeof made) == 0);
    CHECK(_mm_getcsr() == before);
}

/* Whether the whole register is afterwards as it was: the exceptions noted in it too. */
static bool env_kept(search_function *search) {
    searched block = smallest();
    const unsigned before = _mm_getcsr();
    number(search, &block);
    return _mm_getcsr() == before;
}

static void right_in_default_env(search_function *search) {
    CHECK(right(search));
    CHECK(least_sample(search) == PALETTE_SAMPLE);
    CHECK(least_cost(search) == PALETTE_COST_TABLE);
    CHECK(least_lambda(search) == PALETTE_LAMBDA);
    CHECK(tiny_cost_counts(search));
    CHECK(env_kept(search));
}

static void in_default_env(void) {
    right_in_default_env(palette_search_default_env);
    right_in_default_env(in_strip);
}

static void with_every_rounding(void) {
    static const int roundings[] = {FE_DOWNWARD, FE_UPWARD, FE_TOWARDZERO, FE_TONEAREST};
    for (size_t i = 0; i < 4; i++) {
        CHECK(fesetround(roundings[i]) == 0);
        in_default_env();
        same_costs();
        CHECK(fegetround() == roundings[i]);
    }
}

/* An exception would end the program. */
static void with_exceptions_unmasked(void) {
    const unsigned before = _mm_getcsr();
    _mm_setcsr(before & ~EXCEPTION_MASKS);
    in_default_env();
    same_costs();
    _mm_setcsr(before);
}

int main(void) {
    CHECK((_mm_getcsr() & BOTH) == BOTH);
    _mm_setcsr(_mm_getcsr() & ~BOTH);
    make(costs_made_first);
    _mm_setcsr(_mm_getcsr() | BOTH);
    same_costs();
    direct();
    in_default_env();
    with_every_rounding();
    with_exceptions_unmasked();
    CHECK((_mm_getcsr() & BOTH) == BOTH);
    printf("%d wrong\n", wrong);
    return wrong != 0;
}
