/* Calls every function of mudcanvas.h once or more: document 01's table, refusals, what a call keeps, empty lists without a pointer, names of refusals. */
#include "mudcanvas.h"

#include <inttypes.h>
#include <stdio.h>
#include <stdlib.h>
#include <string.h>

static int passes = 0;
static int failures = 0;

static void same(uint64_t got, uint64_t want, const char *what, int line) {
    if (got == want) {
        passes++;
        return;
    }
    failures++;
    printf("line %d: %s is %" PRIu64 ", not %" PRIu64 "\n", line, what, got, want);
}

static void words_same(const uint64_t *got, const uint64_t *want, size_t n, const char *what, int line) {
    for (size_t i = 0; i < n; i++) {
        if (got[i] == want[i]) {
            passes++;
            continue;
        }
        failures++;
        printf("line %d: word %zu of %s is %" PRIu64 ", not %" PRIu64 "\n", line, i, what, got[i], want[i]);
    }
}

#define LEN(a) (sizeof(a) / sizeof((a)[0]))
#define SAME(got, want) same((uint64_t)(got), (uint64_t)(want), #got, __LINE__)
#define REFUSED(call, number)      \
    do {                           \
        mudcanvas_answer r = call; \
        SAME(r.refusal, number);   \
        SAME(r.len, 0);            \
    } while (0)
/* a call of search, one of neighbours, and one of first_overlap, by all that they return */
#define PLACE(call, refused, number, answer) \
    do {                                     \
        mudcanvas_place r = call;            \
        SAME(r.refusal, refused);            \
        SAME(r.begun, number);               \
        SAME(r.listed, answer);              \
    } while (0)
#define NEAREST(call, refused, over, under) \
    do {                                    \
        mudcanvas_nearest r = call;         \
        SAME(r.refusal, refused);           \
        SAME(r.above, over);                \
        SAME(r.below, under);               \
    } while (0)
#define FIRST(call, refused, run)  \
    do {                           \
        mudcanvas_number r = call; \
        SAME(r.refusal, refused);  \
        SAME(r.number, run);       \
    } while (0)
/* an accepted call that writes these words to out */
#define GIVES(call, ...)                                          \
    do {                                                          \
        uint64_t want[] = {__VA_ARGS__};                          \
        mudcanvas_answer r = call;                                \
        SAME(r.refusal, 0);                                       \
        SAME(r.len, LEN(want));                                   \
        words_same(out, want, LEN(want), #call, __LINE__);        \
    } while (0)

static uint64_t out[16], scratch[16];

static void fill(void) {
    for (size_t i = 0; i < LEN(out); i++) {
        out[i] = scratch[i] = 77;
    }
}

/* all words from a place on are as `fill` left them */
static void kept(const uint64_t *words, size_t from, int line) {
    for (size_t i = from; i < LEN(out); i++) {
        same(words[i], 77, "a kept word", line);
    }
}

static void numbers(void) {
    const uint8_t bytes[] = {1, 2, 3, 4, 5, 6, 7, 8, 9};
    SAME(mudcanvas_u32_at(bytes, LEN(bytes), 1), 0x05040302);
    SAME(mudcanvas_u64_at(bytes, LEN(bytes), 1), 0x0908070605040302);
    SAME(mudcanvas_u64_at(bytes, LEN(bytes), 8), 9);
    SAME(mudcanvas_load_word(bytes, LEN(bytes)), 0x0807060504030201);
}

static void bitmaps(void) {
    const uint64_t a[] = {0, 3, 5, 6}, b[] = {3, 5}, c[] = {0, 4}, d[] = {4, 8}, e[] = {0, 10}, f[] = {2, 3, 5, 12};
    const uint64_t empty[] = {5, 5}, touching[] = {0, 3, 3, 5}, apart[] = {0, 3, 4, 5};
    fill();
    GIVES(mudcanvas_union(a, 4, b, 2, out, 16), 0, 6);
    kept(out, 2, __LINE__);
    SAME(mudcanvas_intersect(c, 2, d, 2, out, 16).len, 0);
    GIVES(mudcanvas_difference(e, 2, f, 4, out, 16), 0, 2, 3, 5);
    fill();
    REFUSED(mudcanvas_union(empty, 2, touching, 4, out, 16), MUDCANVAS_EMPTY_RUN);
    REFUSED(mudcanvas_union(a, 4, touching, 4, out, 16), MUDCANVAS_RUN_ORDER);
    REFUSED(mudcanvas_union(a, 3, touching, 4, out, 16), MUDCANVAS_ODD_WORDS);
    REFUSED(mudcanvas_union(a, 4, b, 2, out, 1), MUDCANVAS_NO_ROOM);
    kept(out, 0, __LINE__);

    SAME(mudcanvas_contains(a, 4, 5).yes, true);
    SAME(mudcanvas_contains(a, 4, 6).yes, false);
    SAME(mudcanvas_contains(a, 4, MUDCANVAS_NONE).yes, false);
    SAME(mudcanvas_contains(touching, 4, 1).refusal, MUDCANVAS_RUN_ORDER);
    SAME(mudcanvas_contains(touching, 4, 1).yes, false);
    SAME(mudcanvas_count(a, 4).number, 4);
    SAME(mudcanvas_count(apart, 4).refusal, 0);
    SAME(mudcanvas_count(empty, 2).refusal, MUDCANVAS_EMPTY_RUN);

    const mudcanvas_row_range records[] = {{.start = 0, .end = 3}, {.start = 5, .end = 6}, {.start = 6, .end = 7}, {.start = 9, .end = 9}};
    SAME(mudcanvas_ranges_contains(records, 2, 5).yes, true);
    SAME(mudcanvas_ranges_contains(records, 2, 6).yes, false);
    SAME(mudcanvas_ranges_contains(records, 2, 6).refusal, 0);
    SAME(mudcanvas_ranges_contains(records, 3, 0).refusal, MUDCANVAS_RUN_ORDER);
    SAME(mudcanvas_ranges_contains(records, 3, 0).yes, false);
    SAME(mudcanvas_ranges_count(records, 0).number, 0);
    SAME(mudcanvas_ranges_count(records, 2).number, 4);
    SAME(mudcanvas_ranges_count(records + 3, 1).refusal, MUDCANVAS_EMPTY_RUN);
    SAME(mudcanvas_ranges_count(records, 4).number, 0);

    uint8_t block[40] = {0};
    SAME(mudcanvas_block_decode(block, 4, out, 0).refusal, 0);
    REFUSED(mudcanvas_block_decode(block, 3, out, 16), MUDCANVAS_CUT_SHORT);
    SAME(mudcanvas_block_encode(a, 4, block, 40).len, 36);
    GIVES(mudcanvas_block_decode(block, 40, out, 16), 0, 3, 5, 6);
    REFUSED(mudcanvas_block_encode(a, 4, block, 35), MUDCANVAS_NO_ROOM);
}

static void places(void) {
    const uint64_t runs[] = {2, 5, 8, 9, 20, 30}, none = MUDCANVAS_NONE;
    /* below all, at each start, in a run, at its last row, at each end, in each gap, past all */
    PLACE(mudcanvas_search(runs, 6, 0), 0, 0, false);
    PLACE(mudcanvas_search(runs, 6, 1), 0, 0, false);
    PLACE(mudcanvas_search(runs, 6, 2), 0, 1, true);
    PLACE(mudcanvas_search(runs, 6, 3), 0, 1, true);
    PLACE(mudcanvas_search(runs, 6, 4), 0, 1, true);
    PLACE(mudcanvas_search(runs, 6, 5), 0, 1, false);
    PLACE(mudcanvas_search(runs, 6, 7), 0, 1, false);
    PLACE(mudcanvas_search(runs, 6, 8), 0, 2, true);
    PLACE(mudcanvas_search(runs, 6, 9), 0, 2, false);
    PLACE(mudcanvas_search(runs, 6, 19), 0, 2, false);
    PLACE(mudcanvas_search(runs, 6, 20), 0, 3, true);
    PLACE(mudcanvas_search(runs, 6, 29), 0, 3, true);
    PLACE(mudcanvas_search(runs, 6, 30), 0, 3, false);
    PLACE(mudcanvas_search(runs, 6, none - 1), 0, 3, false);
    PLACE(mudcanvas_search(runs, 6, none), 0, 3, false);

    /* a run from row 0 on, one up to the greatest row, and no runs */
    const uint64_t edges[] = {0, 1, MUDCANVAS_NONE - 2, MUDCANVAS_NONE};
    PLACE(mudcanvas_search(edges, 4, 0), 0, 1, true);
    PLACE(mudcanvas_search(edges, 4, 1), 0, 1, false);
    PLACE(mudcanvas_search(edges, 4, none - 3), 0, 1, false);
    PLACE(mudcanvas_search(edges, 4, none - 2), 0, 2, true);
    PLACE(mudcanvas_search(edges, 4, none - 1), 0, 2, true);
    PLACE(mudcanvas_search(edges, 4, none), 0, 2, false);
    PLACE(mudcanvas_search(runs, 0, 3), 0, 0, false);

    /* each fault of a list, the first of several */
    const uint64_t empty[] = {5, 5}, touching[] = {0, 3, 3, 5}, both[] = {0, 3, 2, 4, 9, 9};
    PLACE(mudcanvas_search(empty, 1, 6), MUDCANVAS_ODD_WORDS, 0, false);
    PLACE(mudcanvas_search(touching, 3, 1), MUDCANVAS_ODD_WORDS, 0, false);
    PLACE(mudcanvas_search(empty, 2, 6), MUDCANVAS_EMPTY_RUN, 0, false);
    PLACE(mudcanvas_search(touching, 4, 1), MUDCANVAS_RUN_ORDER, 0, false);
    PLACE(mudcanvas_search(both, 6, 1), MUDCANVAS_RUN_ORDER, 0, false);
}

static void nearest(void) {
    const uint64_t runs[] = {2, 5, 8, 9, 20, 30}, none = MUDCANVAS_NONE;
    /* below all, at a start, in a run, at its last row, at its end, between runs */
    NEAREST(mudcanvas_neighbours(runs, 6, 0), 0, 2, none);
    NEAREST(mudcanvas_neighbours(runs, 6, 1), 0, 2, none);
    NEAREST(mudcanvas_neighbours(runs, 6, 2), 0, 2, 2);
    NEAREST(mudcanvas_neighbours(runs, 6, 3), 0, 3, 3);
    NEAREST(mudcanvas_neighbours(runs, 6, 4), 0, 4, 4);
    NEAREST(mudcanvas_neighbours(runs, 6, 5), 0, 8, 4);
    NEAREST(mudcanvas_neighbours(runs, 6, 7), 0, 8, 4);
    NEAREST(mudcanvas_neighbours(runs, 6, 8), 0, 8, 8);
    NEAREST(mudcanvas_neighbours(runs, 6, 9), 0, 20, 8);
    NEAREST(mudcanvas_neighbours(runs, 6, 19), 0, 20, 8);
    NEAREST(mudcanvas_neighbours(runs, 6, 29), 0, 29, 29);
    /* at the last end, above all, the greatest row and past it */
    NEAREST(mudcanvas_neighbours(runs, 6, 30), 0, none, 29);
    NEAREST(mudcanvas_neighbours(runs, 6, 1000), 0, none, 29);
    NEAREST(mudcanvas_neighbours(runs, 6, none - 1), 0, none, 29);
    NEAREST(mudcanvas_neighbours(runs, 6, none), 0, none, 29);

    /* each word of a run's edge, by one row and by more */
    FIRST(mudcanvas_first_overlap(runs, 6, 0, 2), 0, none);
    FIRST(mudcanvas_first_overlap(runs, 6, 0, 3), 0, 0);
    FIRST(mudcanvas_first_overlap(runs, 6, 4, 5), 0, 0);
    FIRST(mudcanvas_first_overlap(runs, 6, 5, 8), 0, none);
    FIRST(mudcanvas_first_overlap(runs, 6, 5, 9), 0, 1);
    FIRST(mudcanvas_first_overlap(runs, 6, 8, 9), 0, 1);
    FIRST(mudcanvas_first_overlap(runs, 6, 9, 20), 0, none);
    FIRST(mudcanvas_first_overlap(runs, 6, 9, 21), 0, 2);
    FIRST(mudcanvas_first_overlap(runs, 6, 29, none), 0, 2);
    FIRST(mudcanvas_first_overlap(runs, 6, 30, none), 0, none);
    /* within a run, over two of them, over all, past all */
    FIRST(mudcanvas_first_overlap(runs, 6, 22, 25), 0, 2);
    FIRST(mudcanvas_first_overlap(runs, 6, 3, 9), 0, 0);
    FIRST(mudcanvas_first_overlap(runs, 6, 8, 21), 0, 1);
    FIRST(mudcanvas_first_overlap(runs, 6, 0, none), 0, 0);
    FIRST(mudcanvas_first_overlap(runs, 6, none - 1, none), 0, none);

    /* a run up to the greatest row, and no runs */
    const uint64_t top[] = {MUDCANVAS_NONE - 2, MUDCANVAS_NONE};
    NEAREST(mudcanvas_neighbours(top, 2, none - 3), 0, none - 2, none);
    NEAREST(mudcanvas_neighbours(top, 2, none - 1), 0, none - 1, none - 1);
    NEAREST(mudcanvas_neighbours(top, 2, none), 0, none, none - 1);
    FIRST(mudcanvas_first_overlap(top, 2, 0, none - 2), 0, none);
    FIRST(mudcanvas_first_overlap(top, 2, none - 1, none), 0, 0);
    NEAREST(mudcanvas_neighbours(runs, 0, 3), 0, none, none);
    NEAREST(mudcanvas_neighbours(runs, 0, none), 0, none, none);
    FIRST(mudcanvas_first_overlap(runs, 0, 0, none), 0, none);

    /* each fault of a list, the first of several; then the range, also where it is given backwards */
    const uint64_t empty[] = {5, 5}, touching[] = {0, 3, 3, 5}, both[] = {0, 3, 2, 4, 9, 9};
    NEAREST(mudcanvas_neighbours(empty, 1, 3), MUDCANVAS_ODD_WORDS, 0, 0);
    NEAREST(mudcanvas_neighbours(touching, 3, 3), MUDCANVAS_ODD_WORDS, 0, 0);
    NEAREST(mudcanvas_neighbours(empty, 2, 3), MUDCANVAS_EMPTY_RUN, 0, 0);
    NEAREST(mudcanvas_neighbours(touching, 4, 3), MUDCANVAS_RUN_ORDER, 0, 0);
    NEAREST(mudcanvas_neighbours(both, 6, none), MUDCANVAS_RUN_ORDER, 0, 0);
    const uint64_t ends[] = {9, 7, 6, 0};
    for (size_t i = 0; i < LEN(ends); i++) {
        const bool good = ends[i] > 7;
        FIRST(mudcanvas_first_overlap(runs, 6, 7, ends[i]), good ? MUDCANVAS_OK : MUDCANVAS_EMPTY_RUN, good ? 1 : 0);
        FIRST(mudcanvas_first_overlap(runs, 0, 7, ends[i]), good ? MUDCANVAS_OK : MUDCANVAS_EMPTY_RUN, good ? none : 0);
        FIRST(mudcanvas_first_overlap(touching, 3, 7, ends[i]), MUDCANVAS_ODD_WORDS, 0);
        FIRST(mudcanvas_first_overlap(empty, 2, 7, ends[i]), MUDCANVAS_EMPTY_RUN, 0);
        FIRST(mudcanvas_first_overlap(touching, 4, 7, ends[i]), MUDCANVAS_RUN_ORDER, 0);
        FIRST(mudcanvas_first_overlap(both, 6, 7, ends[i]), MUDCANVAS_RUN_ORDER, 0);
    }
    FIRST(mudcanvas_first_overlap(runs, 6, none, none), MUDCANVAS_EMPTY_RUN, 0);

    /* zeros that are never touched: only the length is looked at */
    uint64_t *many = calloc((size_t)MUDCANVAS_MAX_WORDS + 2, sizeof(uint64_t));
    if (many == NULL) {
        printf("calls: without a list above the limit, of 4 GiB\n");
        return;
    }
    for (size_t len = MUDCANVAS_MAX_WORDS + 1; len <= MUDCANVAS_MAX_WORDS + 2; len++) {
        PLACE(mudcanvas_search(many, len, 3), MUDCANVAS_TOO_LONG, 0, false);
        NEAREST(mudcanvas_neighbours(many, len, 3), MUDCANVAS_TOO_LONG, 0, 0);
        FIRST(mudcanvas_first_overlap(many, len, 3, 5), MUDCANVAS_TOO_LONG, 0);
        FIRST(mudcanvas_first_overlap(many, len, 5, 3), MUDCANVAS_TOO_LONG, 0);
    }
    free(many);
}

static void building(void) {
    const uint64_t rows[] = {9, 1, 2, 9}, ranges[] = {5, 7, 9, 2, 0, 5}, none[] = {3, MUDCANVAS_NONE};
    const uint8_t bits[] = {0x0D};
    fill();
    GIVES(mudcanvas_from_rows(rows, 4, out, 16), 1, 3, 9, 10);
    SAME(out[4] | out[5] | out[6] | out[7], 0);
    kept(out, 8, __LINE__);
    REFUSED(mudcanvas_from_rows(rows, 4, out, 7), MUDCANVAS_NO_ROOM);
    REFUSED(mudcanvas_from_rows(none, 2, out, 16), MUDCANVAS_NO_ROW);
    GIVES(mudcanvas_from_ranges(ranges, 6, out, 16), 0, 7);
    REFUSED(mudcanvas_from_ranges(ranges, 5, out, 16), MUDCANVAS_ODD_WORDS);
    GIVES(mudcanvas_from_packed_bits(bits, 1, out, 16), 0, 1, 2, 4);
}

static void indexes(void) {
    const uint64_t three[] = {0, 4, 6, 9}, seven[] = {2, 7}, more[] = {7, 9};
    uint8_t none[4] = {0}, first[84], index[84], copy[100], block[20];
    SAME(mudcanvas_index_insert(none, 4, 3, three, 4, first, 84).len, 52);
    SAME(mudcanvas_index_insert(first, 52, 7, seven, 2, index, 84).len, 84);
    REFUSED(mudcanvas_index_insert(first, 52, 7, seven, 2, copy, 83), MUDCANVAS_NO_ROOM);

    mudcanvas_index_read known = mudcanvas_index_decode(index, 84);
    SAME(known.refusal, 0);
    SAME(known.entries, 2);
    SAME(known.runs, 3);
    SAME(mudcanvas_index_decode(index, 83).refusal, MUDCANVAS_CUT_SHORT);
    SAME(mudcanvas_index_decode(index, 83).entries, 0);

    mudcanvas_part part = mudcanvas_index_bitmap(index, 84, 7);
    SAME(part.at, 64);
    SAME(part.len, mudcanvas_block_encode(seven, 2, block, 20).len);
    SAME(memcmp(index + part.at, block, part.len), 0);
    SAME(mudcanvas_index_bitmap(index, 84, 5).len, 0);
    SAME(mudcanvas_index_bitmap(index, 83, 7).len, 0);

    memcpy(copy, index, 84);
    copy[84] = 7;
    uint8_t written[84];
    SAME(mudcanvas_index_encode(copy, 85, written, 84).len, 84);
    SAME(memcmp(written, index, 84), 0);

    const uint64_t steps[] = {MUDCANVAS_TAKE, 3, MUDCANVAS_WITHOUT, 7}, values[] = {3, 7}, kinds[] = {5, 3};
    const uint64_t mistyped[] = {MUDCANVAS_TAKE, 3, MUDCANVAS_WITHOUT, 71}, both[] = {MUDCANVAS_TAKE, 71, 5, 3};
    fill();
    GIVES(mudcanvas_filter(index, 84, steps, 4, out, 16, scratch, 16), 0, 2, 7, 9);
    SAME(out[4] | out[5] | scratch[0] | scratch[5], 0);
    kept(out, 6, __LINE__);
    kept(scratch, 6, __LINE__);
    GIVES(mudcanvas_intersect_values(index, 84, values, 2, out, 16, scratch, 16), 2, 4, 6, 7);
    SAME(mudcanvas_intersect_values(index, 84, values, 0, out, 16, scratch, 16).len, 0);
    REFUSED(mudcanvas_filter(index, 84, kinds, 2, out, 16, scratch, 16), MUDCANVAS_STEP_KIND);
    REFUSED(mudcanvas_filter(index, 84, steps, 3, out, 16, scratch, 16), MUDCANVAS_ODD_WORDS);
    REFUSED(mudcanvas_filter(index, 84, steps, 4, out, 16, scratch, 5), MUDCANVAS_NO_ROOM);
    REFUSED(mudcanvas_filter(index, 83, kinds, 2, out, 16, scratch, 16), MUDCANVAS_CUT_SHORT);
    fill();
    REFUSED(mudcanvas_filter(index, 84, mistyped, 4, out, 16, scratch, 16), MUDCANVAS_MISSING_VALUE);
    kept(out, 0, __LINE__);
    kept(scratch, 0, __LINE__);
    REFUSED(mudcanvas_filter(index, 84, mistyped, 4, out, 0, scratch, 0), MUDCANVAS_MISSING_VALUE);
    REFUSED(mudcanvas_filter(index, 84, both, 4, out, 16, scratch, 16), MUDCANVAS_STEP_KIND);
    SAME(mudcanvas_intersect_values(index, 84, mistyped + 1, 3, out, 16, scratch, 16).len, 0);
    // an entry without runs is there
    SAME(mudcanvas_index_insert(index, 84, 71, NULL, 0, copy, 100).len, 100);
    GIVES(mudcanvas_filter(copy, 100, mistyped, 4, out, 16, scratch, 16), 0, 4, 6, 9);

    uint8_t joined[84];
    SAME(mudcanvas_index_insert(index, 84, 7, more, 2, joined, 84).len, 84);
    part = mudcanvas_index_bitmap(joined, 84, 7);
    GIVES(mudcanvas_block_decode(joined + part.at, part.len, out, 16), 2, 9);

    uint8_t twice[28] = {2, 0, 0, 0, 3, 0, 0, 0, 0, 0, 0, 0, 4, 0, 0, 0, 0, 0, 0, 0, 3};
    SAME(mudcanvas_index_decode(twice, 28).refusal, MUDCANVAS_VALUE_ORDER);
}

/* a copy of document 01's index, refused with a number since a byte of it is changed */
static void faulty(uint8_t *copy, const uint8_t *index, size_t at, uint8_t byte, uint64_t number) {
    memcpy(copy, index, 84);
    copy[at] = byte;
    SAME(mudcanvas_index_decode(copy, 84).refusal, number);
}

static void merging(void) {
    const uint64_t three[] = {0, 4, 6, 9}, seven[] = {2, 7}, five[] = {2, 4}, touching[] = {7, 8}, joined[] = {2, 8};
    uint8_t none[] = MUDCANVAS_EMPTY_INDEX, some[132], more[132], index[84], other[84], due[132], merged[180];
    SAME(mudcanvas_index_insert(none, 4, 3, three, 4, some, 132).len, 52);
    SAME(mudcanvas_index_insert(some, 52, 7, seven, 2, index, 84).len, 84);
    /* a new value, one that both have, and one without runs */
    SAME(mudcanvas_index_insert(none, 4, 5, five, 2, some, 132).len, 36);
    SAME(mudcanvas_index_insert(some, 36, 7, touching, 2, more, 132).len, 68);
    SAME(mudcanvas_index_insert(more, 68, 9, NULL, 0, other, 84).len, 84);
    /* the same index by insertion */
    SAME(mudcanvas_index_insert(none, 4, 3, three, 4, some, 132).len, 52);
    SAME(mudcanvas_index_insert(some, 52, 5, five, 2, more, 132).len, 84);
    SAME(mudcanvas_index_insert(more, 84, 7, joined, 2, some, 132).len, 116);
    SAME(mudcanvas_index_insert(some, 116, 9, NULL, 0, due, 132).len, 132);

    /* room for the result alone, in both orders */
    SAME(mudcanvas_index_merge(index, 84, other, 84, merged, 132).len, 132);
    SAME(memcmp(merged, due, 132), 0);
    SAME(mudcanvas_index_merge(other, 84, index, 84, merged, 132).len, 132);
    SAME(memcmp(merged, due, 132), 0);
    mudcanvas_index_read known = mudcanvas_index_decode(merged, 132);
    SAME(known.entries, 4);
    SAME(known.runs, 4);
    mudcanvas_part part = mudcanvas_index_bitmap(merged, 132, 7);
    GIVES(mudcanvas_block_decode(merged + part.at, part.len, out, 16), 2, 8);
    SAME(mudcanvas_index_bitmap(merged, 132, 9).len, 4);
    /* more room: bytes past the result keep their contents */
    SAME(mudcanvas_index_merge_bound(84, 84), 164);
    const size_t rooms[] = {133, 163, 164, 180};
    for (size_t k = 0; k < LEN(rooms); k++) {
        memset(merged, 77, sizeof(merged));
        SAME(mudcanvas_index_merge(index, 84, other, 84, merged, rooms[k]).len, 132);
        SAME(memcmp(merged, due, 132), 0);
        for (size_t i = 132; i < sizeof(merged); i++) {
            SAME(merged[i], 77);
        }
    }
    /* the empty index changes nothing; bytes that reading ignores are cut */
    SAME(mudcanvas_index_merge(none, 4, index, 84, merged, 84).len, 84);
    SAME(memcmp(merged, index, 84), 0);
    memcpy(some, index, 84);
    some[84] = 9;
    SAME(mudcanvas_index_merge(some, 85, none, 4, merged, 85).len, 84);
    SAME(memcmp(merged, index, 84), 0);
    SAME(mudcanvas_index_merge(none, 4, none, 4, merged, 4).len, 4);
    SAME(memcmp(merged, none, 4), 0);

    /* one byte too few; each fault of the first before each of the second, and both before the room */
    uint8_t bad[4][84];
    faulty(bad[0], index, 0, 3, MUDCANVAS_CUT_SHORT);
    faulty(bad[1], index, 28, 0, MUDCANVAS_EMPTY_RUN);
    faulty(bad[2], index, 36, 4, MUDCANVAS_RUN_ORDER);
    faulty(bad[3], index, 52, 3, MUDCANVAS_VALUE_ORDER);
    memset(merged, 77, sizeof(merged));
    REFUSED(mudcanvas_index_merge(index, 84, other, 84, merged, 131), MUDCANVAS_NO_ROOM);
    for (size_t i = 0; i < 4; i++) {
        REFUSED(mudcanvas_index_merge(bad[i], 84, other, 84, merged, 180), MUDCANVAS_CUT_SHORT + i);
        REFUSED(mudcanvas_index_merge(index, 84, bad[i], 84, merged, 180), MUDCANVAS_CUT_SHORT + i);
        for (size_t j = 0; j < 4; j++) {
            REFUSED(mudcanvas_index_merge(bad[i], 84, bad[j], 84, merged, 180), MUDCANVAS_CUT_SHORT + i);
            REFUSED(mudcanvas_index_merge(bad[i], 84, bad[j], 84, merged, 3), MUDCANVAS_CUT_SHORT + i);
        }
    }
    for (size_t i = 0; i < sizeof(merged); i++) {
        SAME(merged[i], 77);
    }
}

static void ranks(void) {
    const uint64_t runs[] = {2, 4, 7, 8}, at[] = {0, 2, 3, 4, 8}, select[] = {0, 1, 2, 3}, other[] = {0, 3, 4}, counts[] = {0, 2, 3};
    uint64_t directory[3], flags[5];
    REFUSED(mudcanvas_run_directory(runs, 4, directory, 2), MUDCANVAS_NO_ROOM);
    SAME(mudcanvas_run_directory(runs, 4, directory, 3).len, 3);
    words_same(directory, counts, 3, "directory", __LINE__);
    GIVES(mudcanvas_run_rank(runs, 4, directory, 3, at, 5, out, 16), 0, 0, 1, 2, 3);
    GIVES(mudcanvas_run_select(runs, 4, directory, 3, select, 4, out, 16), 2, 3, 7, MUDCANVAS_NONE);
    GIVES(mudcanvas_run_rank_and_contains(runs, 4, directory, 3, at, 5, out, 16, flags, 5), 0, 0, 1, 2, 3);
    const uint64_t listed[] = {0, 1, 1, 0, 0};
    words_same(flags, listed, 5, "flags", __LINE__);
    REFUSED(mudcanvas_run_rank(runs, 4, other, 3, at, 5, out, 16), MUDCANVAS_OTHER_DIRECTORY);
    REFUSED(mudcanvas_run_rank(runs, 4, directory, 2, at, 5, out, 16), MUDCANVAS_OTHER_DIRECTORY);
    REFUSED(mudcanvas_run_select(runs, 4, directory, 3, at, 5, out, 4), MUDCANVAS_NO_ROOM);
}

static void packed(void) {
    const uint8_t bits[] = {0xFF}, some[] = {0x0D};
    const uint64_t at[] = {0, 3, 5, 6}, pairs[] = {1, 4, 4, 1}, rows[] = {0, 1, 2, 3, 8};
    const uint64_t ks[] = {0, 2, 3, 4, MUDCANVAS_NONE}, other[] = {1};
    uint64_t directory[1];
    uint32_t entries[1];
    SAME(mudcanvas_bit_directory(bits, 1, 5, directory, 1).len, 1);
    SAME(mudcanvas_bit_total(bits, 1, 5, directory, 1).number, 5);
    GIVES(mudcanvas_bit_rank(bits, 1, 5, directory, 1, at, 4, out, 16), 0, 3, 5, 5);
    GIVES(mudcanvas_bit_count_range(bits, 1, 5, directory, 1, pairs, 4, out, 16), 3, 0);
    REFUSED(mudcanvas_bit_count_range(bits, 1, 5, directory, 1, pairs, 3, out, 16), MUDCANVAS_ODD_WORDS);
    SAME(mudcanvas_bit_total(bits, 1, 5, directory, 0).refusal, MUDCANVAS_OTHER_DIRECTORY);
    GIVES(mudcanvas_bit_select(some, 1, 5, directory, 1, ks, 5, out, 16), 0, 3, MUDCANVAS_NONE, MUDCANVAS_NONE, MUDCANVAS_NONE);
    GIVES(mudcanvas_bit_select(some, 1, 3, directory, 1, ks, 2, out, 16), 0, MUDCANVAS_NONE);
    REFUSED(mudcanvas_bit_select(some, 1, 5, other, 1, ks, 5, out, 16), MUDCANVAS_OTHER_DIRECTORY);
    REFUSED(mudcanvas_bit_select(some, 1, 5, directory, 1, ks, 5, out, 4), MUDCANVAS_NO_ROOM);
    SAME(mudcanvas_count_set_bits(bits, 1, 5).number, 5);
    SAME(mudcanvas_present_position(some, 1, 3).number, 2);
    SAME(mudcanvas_present_position(some, 1, 1).number, MUDCANVAS_NONE);
    SAME(mudcanvas_presence_directory(some, 1, entries, 1).len, 1);
    GIVES(mudcanvas_position(some, 1, entries, 1, rows, 5, out, 16), 0, MUDCANVAS_NONE, 1, 2, MUDCANVAS_NONE);
    REFUSED(mudcanvas_position(some, 1, entries, 1, rows, 5, out, 4), MUDCANVAS_NO_ROOM);
}

/* an empty list may be null, in each argument of each call */
static void nulls(void) {
    const uint8_t empty[] = MUDCANVAS_EMPTY_INDEX;
    const uint64_t zero[] = {0};
    SAME(mudcanvas_u32_at(NULL, 0, 3), 0);
    SAME(mudcanvas_u64_at(NULL, 0, 3), 0);
    SAME(mudcanvas_load_word(NULL, 0), 0);
    REFUSED(mudcanvas_union(NULL, 0, NULL, 0, NULL, 0), MUDCANVAS_OK);
    REFUSED(mudcanvas_intersect(NULL, 0, NULL, 0, NULL, 0), MUDCANVAS_OK);
    REFUSED(mudcanvas_difference(NULL, 0, NULL, 0, NULL, 0), MUDCANVAS_OK);
    SAME(mudcanvas_contains(NULL, 0, 3).yes, false);
    SAME(mudcanvas_count(NULL, 0).number, 0);
    PLACE(mudcanvas_search(NULL, 0, 3), MUDCANVAS_OK, 0, false);
    NEAREST(mudcanvas_neighbours(NULL, 0, 3), MUDCANVAS_OK, MUDCANVAS_NONE, MUDCANVAS_NONE);
    FIRST(mudcanvas_first_overlap(NULL, 0, 3, 5), MUDCANVAS_OK, MUDCANVAS_NONE);
    FIRST(mudcanvas_first_overlap(NULL, 0, 5, 5), MUDCANVAS_EMPTY_RUN, 0);
    SAME(mudcanvas_ranges_contains(NULL, 0, 3).refusal, MUDCANVAS_OK);
    SAME(mudcanvas_ranges_count(NULL, 0).refusal, MUDCANVAS_OK);
    REFUSED(mudcanvas_block_decode(NULL, 0, NULL, 0), MUDCANVAS_CUT_SHORT);
    REFUSED(mudcanvas_block_decode(empty, 4, NULL, 0), MUDCANVAS_OK);
    REFUSED(mudcanvas_block_encode(NULL, 0, NULL, 0), MUDCANVAS_NO_ROOM);
    REFUSED(mudcanvas_from_rows(NULL, 0, NULL, 0), MUDCANVAS_OK);
    REFUSED(mudcanvas_from_ranges(NULL, 0, NULL, 0), MUDCANVAS_OK);
    REFUSED(mudcanvas_from_packed_bits(NULL, 0, NULL, 0), MUDCANVAS_OK);
    SAME(mudcanvas_index_decode(NULL, 0).refusal, MUDCANVAS_CUT_SHORT);
    SAME(mudcanvas_index_bitmap(NULL, 0, 3).len, 0);
    REFUSED(mudcanvas_index_encode(NULL, 0, NULL, 0), MUDCANVAS_CUT_SHORT);
    REFUSED(mudcanvas_index_insert(empty, 4, 3, NULL, 0, NULL, 0), MUDCANVAS_NO_ROOM);
    REFUSED(mudcanvas_index_merge(NULL, 0, empty, 4, NULL, 0), MUDCANVAS_CUT_SHORT);
    REFUSED(mudcanvas_index_merge(empty, 4, NULL, 0, NULL, 0), MUDCANVAS_CUT_SHORT);
    REFUSED(mudcanvas_index_merge(empty, 4, empty, 4, NULL, 0), MUDCANVAS_NO_ROOM);
    REFUSED(mudcanvas_filter(empty, 4, NULL, 0, NULL, 0, NULL, 0), MUDCANVAS_OK);
    REFUSED(mudcanvas_intersect_values(empty, 4, NULL, 0, NULL, 0, NULL, 0), MUDCANVAS_OK);
    REFUSED(mudcanvas_run_directory(NULL, 0, NULL, 0), MUDCANVAS_NO_ROOM);
    REFUSED(mudcanvas_run_rank(NULL, 0, zero, 1, NULL, 0, NULL, 0), MUDCANVAS_OK);
    REFUSED(mudcanvas_run_rank(NULL, 0, NULL, 0, NULL, 0, NULL, 0), MUDCANVAS_OTHER_DIRECTORY);
    REFUSED(mudcanvas_run_select(NULL, 0, zero, 1, NULL, 0, NULL, 0), MUDCANVAS_OK);
    REFUSED(mudcanvas_run_select(NULL, 0, NULL, 0, NULL, 0, NULL, 0), MUDCANVAS_OTHER_DIRECTORY);
    REFUSED(mudcanvas_run_rank_and_contains(NULL, 0, zero, 1, NULL, 0, NULL, 0, NULL, 0), MUDCANVAS_OK);
    REFUSED(mudcanvas_run_rank_and_contains(NULL, 0, NULL, 0, NULL, 0, NULL, 0, NULL, 0), MUDCANVAS_OTHER_DIRECTORY);
    REFUSED(mudcanvas_bit_directory(NULL, 0, 0, NULL, 0), MUDCANVAS_NO_ROOM);
    REFUSED(mudcanvas_bit_rank(NULL, 0, 9, zero, 1, NULL, 0, NULL, 0), MUDCANVAS_OK);
    REFUSED(mudcanvas_bit_rank(NULL, 0, 9, NULL, 0, NULL, 0, NULL, 0), MUDCANVAS_OTHER_DIRECTORY);
    REFUSED(mudcanvas_bit_count_range(NULL, 0, 9, zero, 1, NULL, 0, NULL, 0), MUDCANVAS_OK);
    SAME(mudcanvas_bit_total(NULL, 0, 9, zero, 1).number, 0);
    REFUSED(mudcanvas_bit_select(NULL, 0, 9, zero, 1, NULL, 0, NULL, 0), MUDCANVAS_OK);
    REFUSED(mudcanvas_bit_select(NULL, 0, 9, NULL, 0, NULL, 0, NULL, 0), MUDCANVAS_OTHER_DIRECTORY);
    SAME(mudcanvas_count_set_bits(NULL, 0, 9).number, 0);
    SAME(mudcanvas_present_position(NULL, 0, 9).number, MUDCANVAS_NONE);
    REFUSED(mudcanvas_presence_directory(NULL, 0, NULL, 0), MUDCANVAS_OK);
    REFUSED(mudcanvas_position(NULL, 0, NULL, 0, NULL, 0, NULL, 0), MUDCANVAS_OK);
}

static void names(void) {
    for (uint64_t r = MUDCANVAS_OK; r <= MUDCANVAS_MISSING_VALUE; r++) {
        SAME(strncmp(mudcanvas_refusal_name(r), "MUDCANVAS_", 10), 0);
        SAME(strlen(mudcanvas_refusal_text(r)) > 7, 1);
    }
    SAME(strcmp(mudcanvas_refusal_name(MUDCANVAS_STEP_KIND), "MUDCANVAS_STEP_KIND"), 0);
    SAME(strcmp(mudcanvas_refusal_name(MUDCANVAS_MISSING_VALUE + 1), "unknown refusal"), 0);
    SAME(strcmp(mudcanvas_refusal_text(UINT64_MAX), "a refusal of a later version"), 0);
    char version[32];
    snprintf(version, sizeof(version), "%d.%d.%d", MUDCANVAS_VERSION_MAJOR, MUDCANVAS_VERSION_MINOR, MUDCANVAS_VERSION_PATCH);
    SAME(strcmp(version, MUDCANVAS_VERSION), 0);
    SAME(10000 * MUDCANVAS_VERSION_MAJOR + 100 * MUDCANVAS_VERSION_MINOR + MUDCANVAS_VERSION_PATCH, MUDCANVAS_VERSION_NUMBER);
}

int main(void) {
    numbers();
    bitmaps();
    places();
    nearest();
    building();
    indexes();
    merging();
    ranks();
    packed();
    nulls();
    names();
    printf("calls: %d passed, %d failed\n", passes, failures);
    return failures != 0;
}
