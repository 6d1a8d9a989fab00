/* Calls every function of the header: an accepted case and a refused one each. */
#include "palette.h"

#include <stdio.h>
#include <string.h>

static int wrong = 0;

static void check(bool holds, int line, const char *what) {
    if (!holds) {
        printf("line %d: %s\n", line, what);
        wrong++;
    }
}

#define CHECK(what) check((what), __LINE__, #what)

static void fill(void *buffer, size_t bytes) { memset(buffer, 0xee, bytes); }

static bool filled(const void *buffer, size_t bytes) {
    const unsigned char *byte = buffer;
    while (bytes-- > 0) {
        if (*byte++ != 0xee) return false;
    }
    return true;
}

static bool zeros(const void *buffer, size_t bytes) {
    const unsigned char *byte = buffer;
    while (bytes-- > 0) {
        if (*byte++ != 0) return false;
    }
    return true;
}

static void block_allowed(void) {
    CHECK(palette_block_allowed(2, 2));
    CHECK(palette_block_allowed(16, 16));
    CHECK(!palette_block_allowed(1, 3));
    CHECK(!palette_block_allowed(17, 1));
    CHECK(!palette_block_allowed(0, 16));
}

static void context(void) {
    const uint8_t map[4] = {0, 2, 1, 0};
    const uint32_t due[17] = {1, 1, 2, 0, 3, 0, 0, 0, 0, 2, 0, 1, 3, 0, 0, 0, 0};
    uint32_t room[19], *answer = room + 1;
    fill(room, sizeof room);
    CHECK(palette_context(map, 4, 2, 1, 1, 4, answer) == PALETTE_ACCEPTED);
    CHECK(memcmp(answer, due, sizeof due) == 0);
    for (int i = 0; i < 4; i++) CHECK(answer[1 + answer[9 + i]] == (uint32_t)i);
    CHECK(palette_context(map, 4, 2, 0, 0, 4, answer) == PALETTE_NO_CONTEXT);
    CHECK(zeros(answer, sizeof due));
    CHECK(filled(room, sizeof *room) && filled(answer + 17, sizeof *room));
}

/* Each row begins at 28672 and falls by 4096, so each symbol but its last costs 3. */
static void even_rows(uint16_t rows[PALETTE_ADAPTED]) {
    size_t at = 0;
    memset(rows, 0, PALETTE_ADAPTED * sizeof *rows);
    for (int row = 0; row < 41; row++) {
        const int used = row == 0 ? 1 : row == 1 ? 6 : row < 6 ? 2 : (row - 6) / 5 + 1;
        for (int i = 0; i < used; i++) rows[at + i] = (uint16_t)(28672 - 4096 * i);
        at += row < 6 ? used : 7;
    }
}

/* The places before and behind show a write that goes too far. */
static void costs(void) {
    uint16_t rows[PALETTE_ADAPTED];
    float room[PALETTE_COSTS + 2], *made = room + 1;
    even_rows(rows);
    fill(room, sizeof room);
    CHECK(palette_costs(rows, 259, made) == PALETTE_ADAPTED_LENGTH);
    CHECK(zeros(made, PALETTE_COSTS * sizeof *made));
    CHECK(palette_costs(rows, PALETTE_ADAPTED, made) == PALETTE_ACCEPTED);
    CHECK(made[0] == 3 && made[1] == 0.1875f && made[2] == 3 && made[20] == 0.375f);
    CHECK(made[21] == 3 && made[22] == 0.1875f && made[23] == 0 && made[300] == 3);
    CHECK(palette_costs(rows, 0, made) == PALETTE_ACCEPTED);
    CHECK(made[0] == 0.125f && made[1] == 3.5625f && made[29] == 1 && made[30] == 1);
    rows[259] = 0;
    CHECK(palette_costs(rows, PALETTE_ADAPTED, made) == PALETTE_ADAPTED_ROWS);
    CHECK(zeros(made, PALETTE_COSTS * sizeof *made));
    CHECK(filled(room, sizeof *room) && filled(made + PALETTE_COSTS, sizeof *room));
}

/*
 * Document 01's block with the default costs, then with those of the even rows. Lambda 0 leaves its
 * map as it is; the estimate is 51 with costs of 0, and 3 times what it takes of the costs more:
 * mode palette less none, size 2, the flag, rank 0 at 14 cells and rank 1 at one. The first two
 * are the head's, 16 with costs of 0.
 */
static void search_with_made_costs(void) {
    const float heads[2] = {16 + 3.4375f + 1.875f, 16 - 2.8125f + 3};
    const float due[2] = {51 + 3 * (3.4375f + 1.875f + 1.3125f + 14 * 0.1875f + 2.8125f),
                          51 + 3 * (-2.8125f + 3 + 3 + 14 * 3 + 0.1875f)};
    float samples[16], made[PALETTE_COSTS], bits[2];
    uint16_t rows[PALETTE_ADAPTED];
    uint8_t map[16], flags[16];
    uint32_t found[10];
    for (int i = 0; i < 16; i++) samples[i] = i < 8 ? 10 : 20;
    even_rows(rows);
    for (int lent = 0; lent < 2; lent++) {
        CHECK(palette_costs(rows, lent ? PALETTE_ADAPTED : 0, made) == PALETTE_ACCEPTED);
        CHECK(palette_search(samples, 16, 16, 1, 8, 0, made, PALETTE_COSTS, map, 16, flags, 16,
                             found, bits) == PALETTE_ACCEPTED);
        CHECK(bits[0] == heads[lent] && palette_estimate(bits[0], bits[1]) == due[lent]);
    }
}

/* Document 01's block, 16 by 1, with room for a place more. */
static void search(void) {
    float samples[16], costs[PALETTE_COSTS] = {0}, bits[3] = {-1, -1, -1};
    uint8_t map[17], flags[17];
    uint32_t found[10];
    const uint32_t due[10] = {2, 10, 20, 0, 0, 0, 0, 0, 0, 0};
    for (int i = 0; i < 16; i++) samples[i] = i < 8 ? 10 : 20;
    fill(map, 17), fill(flags, 17), fill(found, sizeof found);
    CHECK(palette_search(samples, 16, 16, 1, 8, 0, costs, 300, map, 16, flags, 16, found, bits) ==
          PALETTE_COST_TABLE);
    CHECK(palette_search(samples, 16, 16, 1, 8, 0, costs, 301, map, 15, flags, 16, found, bits) ==
          PALETTE_ROOM);
    CHECK(filled(map, 17) && filled(flags, 17) && zeros(found, sizeof found));
    CHECK(zeros(bits, 2 * sizeof *bits) && bits[2] == -1);
    CHECK(palette_search(samples, 16, 16, 1, 8, 0, costs, 301, map, 16, flags, 16, found, bits) ==
          PALETTE_ACCEPTED);
    CHECK(memcmp(found, due, sizeof due) == 0 && bits[0] == 16 && bits[1] == 1 && bits[2] == -1);
    CHECK(palette_estimate(16, 1) == 51 && palette_estimate(-8, 2) == -18);
    CHECK(map[0] == 0 && map[7] == 0 && map[8] == 1 && map[15] == 1 && map[16] == 0xee);
    CHECK(flags[0] == 0 && filled(flags + 1, 16));
}

/* That block, one of a single level, and the first on its side, with room for a place more each. */
static void strip(void) {
    static const size_t sides[7] = {16, 1, 2, 16, 1, 16, 1};
    static const uint32_t due[3][11] = {
        {0, 2, 10, 20, 0, 0, 0, 0, 0, 0, 0},
        {PALETTE_ONE_LEVEL, 0, 0, 0, 0, 0, 0, 0, 0, 0, 0},
        {0, 2, 10, 20, 0, 0, 0, 0, 0, 0, 0},
    };
    static const float counted[6] = {16, 1, 0, 0, 16, 1};
    static const uint8_t last[16] = {1, 2, 2, 2, 2, 2, 2, 2, 1, 2, 2, 2, 2, 2, 2, 2};
    float samples[64], costs[PALETTE_COSTS] = {0}, bits[2 * PALETTE_MAX_STRIP];
    uint8_t map[65], flags[49];
    uint32_t answers[11 * PALETTE_MAX_STRIP];
    for (int i = 0; i < 64; i++) samples[i] = i >= 16 && i < 48 ? 7 : i % 16 < 8 ? 10 : 20;
    fill(map, 65), fill(flags, 49), fill(answers, sizeof answers), fill(bits, sizeof bits);
    CHECK(palette_strip(sides, 7, samples, 64, 8, 0, costs, 301, map, 64, flags, 48, answers,
                        bits) == PALETTE_BLOCK_COUNT);
    CHECK(zeros(answers, sizeof answers) && zeros(bits, sizeof bits));
    CHECK(palette_strip(sides, 6, samples, 63, 8, 0, costs, 301, map, 64, flags, 48, answers,
                        bits) == PALETTE_SAMPLE_COUNT);
    CHECK(palette_strip(sides, 6, samples, 64, 8, 0, costs, 301, map, 64, flags, 47, answers,
                        bits) == PALETTE_ROOM);
    CHECK(zeros(answers, sizeof answers) && zeros(bits, sizeof bits));
    CHECK(filled(map, 65) && filled(flags, 49));
    CHECK(palette_strip(sides, 6, samples, 64, 8, 0, costs, 301, map, 64, flags, 48, answers,
                        bits) == PALETTE_ACCEPTED);
    CHECK(memcmp(answers, due, sizeof due) == 0 && memcmp(bits, counted, sizeof counted) == 0);
    CHECK(zeros(answers + 33, sizeof answers - sizeof due) && zeros(bits + 6, 122 * sizeof *bits));
    CHECK(map[0] == 0 && map[7] == 0 && map[8] == 1 && map[15] == 1 && filled(map + 16, 32));
    CHECK(map[48] == 0 && map[55] == 0 && map[56] == 1 && map[63] == 1 && map[64] == 0xee);
    CHECK(flags[0] == 0 && filled(flags + 1, 31) && memcmp(flags + 32, last, 16) == 0);
    CHECK(flags[48] == 0xee);
}

static const uint16_t colors[8] = {16, 235};
static const uint8_t cells[8] = {0, 0, 0, 0, 0, 0, 1, 1};
static const uint8_t lines[2] = {1, 0};

/* Document 01's listed palette. */
static void list(void) {
    const uint32_t due[12] = {0x03000000, 0x01080010, 0x01020003, 0x010800da,
                              0x01010000, 0x04030001, 0x02020000, 0x04010000,
                              0x05000000, 0x05040000, 0x05040001, 0x05020001};
    const uint16_t cache[65] = {0};
    uint32_t words[13], listed[2];
    fill(words, sizeof words), fill(listed, sizeof listed);
    CHECK(palette_list(4, 2, 8, colors, 2, false, cells, 8, lines, 2, cache, 65, words, 12,
                       listed) == PALETTE_LONG_CACHE);
    CHECK(palette_list(4, 2, 8, colors, 9, false, cells, 8, lines, 2, cache, 0, words, 12,
                       listed) == PALETTE_BAD_COLORS);
    CHECK(palette_list(4, 2, 8, colors, 2, true, cells, 8, lines, 2, cache, 0, words, 12,
                       listed) == PALETTE_LENGTHS);
    CHECK(palette_list(4, 2, 8, colors, 2, false, cells, 8, lines, 2, cache, 0, words, 11,
                       listed) == PALETTE_WORD_ROOM);
    CHECK(filled(words, sizeof words) && zeros(listed, sizeof listed));
    CHECK(palette_list(4, 2, 8, colors, 2, false, cells, 8, lines, 2, cache, 0, words, 12,
                       listed) == PALETTE_ACCEPTED);
    CHECK(memcmp(words, due, sizeof due) == 0 && filled(words + 12, 4));
    CHECK(listed[0] == 12 && listed[1] == 20);
}

static void pred(void) {
    const float due[8] = {16, 16, 16, 16, 16, 16, 235, 235};
    float values[9];
    fill(values, sizeof values);
    CHECK(palette_pred(4, 2, 8, colors, 2, false, cells, 8, lines, 2, values, 7) == PALETTE_ROOM);
    CHECK(palette_pred(4, 2, 7, colors, 2, false, cells, 8, lines, 2, values, 8) == PALETTE_DEPTH);
    CHECK(filled(values, sizeof values));
    CHECK(palette_pred(4, 2, 8, colors, 2, false, cells, 8, lines, 2, values, 8) ==
          PALETTE_ACCEPTED);
    CHECK(memcmp(values, due, sizeof due) == 0 && filled(values + 8, sizeof(float)));
}

/* The same palette, read back from its list. */
static void read_back(void) {
    uint32_t words[13], listed[2], read[10];
    uint8_t map[9], flags[5];
    const uint16_t cache[65] = {16, 16};
    const uint32_t due[10] = {2, 16, 235, 0, 0, 0, 0, 0, 0, 0};
    CHECK(palette_list(4, 2, 8, colors, 2, false, cells, 8, lines, 2, cache, 0, words, 12,
                       listed) == PALETTE_ACCEPTED);
    words[12] = 0;
    fill(map, 9), fill(flags, 5), fill(read, sizeof read);
    CHECK(palette_read(4, 2, 8, cache, 65, words, 12, map, 8, flags, 4, read) ==
          PALETTE_LONG_CACHE);
    CHECK(palette_read(4, 2, 8, cache, 0, words, 12, map, 8, flags, 3, read) == PALETTE_ROOM);
    CHECK(palette_read(4, 2, 8, cache, 0, words, 11, map, 8, flags, 4, read) == PALETTE_LIST_END);
    CHECK(palette_read(4, 2, 8, cache, 1, words, 12, map, 8, flags, 4, read) == PALETTE_WORD);
    CHECK(palette_read(4, 2, 8, cache, 0, words, 13, map, 8, flags, 4, read) ==
          PALETTE_WORDS_LEFT);
    CHECK(filled(map, 9) && filled(flags, 5) && zeros(read, sizeof read));
    CHECK(palette_read(4, 2, 8, cache, 0, words, 12, map, 8, flags, 4, read) == PALETTE_ACCEPTED);
    CHECK(memcmp(read, due, sizeof due) == 0);
    CHECK(memcmp(map, cells, 8) == 0 && map[8] == 0xee);
    CHECK(memcmp(flags, lines, 2) == 0 && filled(flags + 2, 3));
}

/* One line of 64 and one index; both colours from the cache, which has one twice. */
static void not_listed(void) {
    const uint32_t words[5] = {0x03000000, 0x01010001, 0x01010001, 0x04030001, 0x02020000};
    const uint16_t cache[2] = {16, 16};
    uint32_t read[10];
    uint8_t map[64], flags[64];
    fill(map, 64), fill(flags, 64), fill(read, sizeof read);
    CHECK(palette_read(64, 1, 8, cache, 2, words, 5, map, 64, flags, 64, read) ==
          PALETTE_NOT_LISTED);
    CHECK(filled(map, 64) && filled(flags, 64) && zeros(read, sizeof read));
    CHECK(palette_read(64, 1, 8, colors, 2, words, 5, map, 64, flags, 64, read) ==
          PALETTE_ACCEPTED);
}

int main(void) {
    block_allowed();
    context();
    costs();
    search_with_made_costs();
    search();
    strip();
    list();
    read_back();
    not_listed();
    pred();
    printf("%d wrong\n", wrong);
    return wrong != 0;
}
