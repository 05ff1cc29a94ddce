/*
 * mudcanvas.h: row-run bitmaps. Set operations, index bytes, filters, rank and
 * select, packed bits.
 *
 * Link with libmudcanvas.a (x86-64 Linux; it uses the instructions of x86-64-v2
 * without a test for them). The library allocates nothing, keeps
 * nothing between calls, may be called from any thread, and needs nothing from
 * outside but memset.
 *
 *
 * Lists
 *
 * A list is a pointer and its number of elements. The caller sees to this, and
 * to no more:
 * - the pointer is aligned and valid for that many elements; with 0 elements it
 *   may be anything, null included;
 * - a list that is written overlaps no other list of the same call.
 * The contents may be anything: every call validates all that it is given, and
 * ends with its result or with a refusal.
 *
 *
 * Runs
 *
 * A run list is start, end, start, end, .. in 64-bit words. A run holds its
 * start and not its end: 0, 3 is rows 0, 1 and 2. Each start is below its end
 * and above the previous end, so that runs neither overlap nor touch. Rows are
 * 0 to 2^64 - 2. Each set of rows has exactly one run list.
 *
 * A block is a run list in bytes, all numbers little-endian:
 *     run count, 32 bits; then for each run its start and its end, 64 bits each
 * Bytes after the last counted run are ignored.
 *
 * An index maps values to rows:
 *     entry count, 32 bits; then for each entry its value, 64 bits, the length
 *     of its block in bytes, 32 bits, and the block
 * Values strictly rise. Bytes after the last entry are ignored. The empty index
 * is four zero bytes (MUDCANVAS_EMPTY_INDEX).
 *
 *
 * Answers
 *
 * An accepted call returns refusal MUDCANVAS_OK (0) and writes its result from
 * the front of its output; later elements keep their contents, but for those
 * that the call is said to clear. A refused call returns its refusal, zeros for
 * all else, and changes no list.
 *
 * Where several refusals apply, the first one is given. MUDCANVAS_TOO_LONG
 * comes first, for each argument in turn; then the faults of each argument in
 * turn; then MUDCANVAS_OTHER_DIRECTORY; then MUDCANVAS_MISSING_VALUE; then
 * MUDCANVAS_NO_ROOM. The faults of
 * - a run list: MUDCANVAS_ODD_WORDS; then MUDCANVAS_EMPTY_RUN or
 *   MUDCANVAS_RUN_ORDER, whichever the first faulty run has, in this order;
 * - a block: MUDCANVAS_CUT_SHORT, MUDCANVAS_EMPTY_RUN, MUDCANVAS_RUN_ORDER, the
 *   first in reading order;
 * - an index: MUDCANVAS_CUT_SHORT, MUDCANVAS_VALUE_ORDER, MUDCANVAS_EMPTY_RUN,
 *   MUDCANVAS_RUN_ORDER, the first in reading order.
 *
 *
 * Room
 *
 * For each call that writes there is a function mudcanvas_.._bound. An output
 * with that many elements is never refused with MUDCANVAS_NO_ROOM, except where
 * the result itself is longer than a run list (MUDCANVAS_MAX_WORDS) or an index
 * (MUDCANVAS_MAX_BYTES) may be. That is proved, with a law for each call, in
 * crates/demands/proofs/BoundLaws.antt. Where it says "exactly", a shorter
 * output is always refused; else one with room for the result alone will do.
 *
 *
 * Cost
 *
 * Every call validates the whole of its lists, blocks and indexes, each time:
 * on a long list, one position costs nearly as much as a thousand. Ask for many
 * in one call. Where nothing else is said, a call is one pass over its inputs
 * to validate them and one to compute. The set operations and
 * mudcanvas_from_packed_bits measure the result first, in one more pass, where
 * the output is shorter than the bound; mudcanvas_index_merge does where the
 * entries of both indexes, side by side, would not fit; mudcanvas_index_insert
 * always does.
 */
#ifndef MUDCANVAS_H
#define MUDCANVAS_H

#include <stdbool.h>
#include <stddef.h>
#include <stdint.h>

#define MUDCANVAS_VERSION_MAJOR 0
#define MUDCANVAS_VERSION_MINOR 4
#define MUDCANVAS_VERSION_PATCH 2
#define MUDCANVAS_VERSION "0.4.2"
/* 10000 times major, 100 times minor, patch: for comparing */
#define MUDCANVAS_VERSION_NUMBER 402

/* The compiler warns of a call whose answer is not used. */
#if defined(__GNUC__)
#define MUDCANVAS_CHECK __attribute__((warn_unused_result))
#elif (defined(__cplusplus) && __cplusplus >= 201703L) || \
    (defined(__STDC_VERSION__) && __STDC_VERSION__ >= 202311L)
#define MUDCANVAS_CHECK [[nodiscard]]
#else
#define MUDCANVAS_CHECK
#endif

#ifdef __cplusplus
extern "C" {
#endif

/* Later versions add numbers: treat one that is not here as a refusal too. */
enum mudcanvas_refusal {
    MUDCANVAS_OK = 0,
    /* a length is above its limit */
    MUDCANVAS_TOO_LONG = 1,
    /* bytes end inside a field or block */
    MUDCANVAS_CUT_SHORT = 2,
    /* a run's end is not above its start */
    MUDCANVAS_EMPTY_RUN = 3,
    /* a run's start is not above the previous end */
    MUDCANVAS_RUN_ORDER = 4,
    /* an index value is not above the previous */
    MUDCANVAS_VALUE_ORDER = 5,
    /* an odd number of words where pairs are due */
    MUDCANVAS_ODD_WORDS = 6,
    /* 2^64 - 1 is not a row */
    MUDCANVAS_NO_ROW = 7,
    /* a step kind is outside 1 to 4 */
    MUDCANVAS_STEP_KIND = 8,
    /* the directory is not the one of its data */
    MUDCANVAS_OTHER_DIRECTORY = 9,
    /* an output is shorter than needed, or a result is past its length limit */
    MUDCANVAS_NO_ROOM = 10,
    /* a step names a value that the index lacks */
    MUDCANVAS_MISSING_VALUE = 11
};

/* Step kinds of a filter. */
enum mudcanvas_step {
    /* keep the value's rows, and no others */
    MUDCANVAS_TAKE = 1,
    /* keep those of the kept rows that the value has */
    MUDCANVAS_AND = 2,
    /* keep the value's rows too */
    MUDCANVAS_OR = 3,
    /* drop the value's rows */
    MUDCANVAS_WITHOUT = 4
};

/* What select, positions, neighbours and first_overlap give for none. It is
 * never a row, nor the number of a run. */
#define MUDCANVAS_NONE UINT64_MAX

/* The index without entries: const uint8_t index[] = MUDCANVAS_EMPTY_INDEX; */
#define MUDCANVAS_EMPTY_INDEX {0, 0, 0, 0}

/* The greatest lengths: words of a run list or of ranges, */
#define MUDCANVAS_MAX_WORDS 536870910u
/* rows given to from_rows, and records of a list of ranges, */
#define MUDCANVAS_MAX_ROWS 268435455u
/* bytes of a block or an index, */
#define MUDCANVAS_MAX_BYTES 4294967295u
/* bytes of packed bits, */
#define MUDCANVAS_MAX_PACKED 536870911u
/* words of a filter's steps, two for each, */
#define MUDCANVAS_MAX_STEP_WORDS 8192u
/* values of intersect_values. Positions, outputs and scratch have no limit. */
#define MUDCANVAS_MAX_VALUES 4096u

/* len: the elements of the result, cleared ones not counted */
typedef struct mudcanvas_answer {
    uint64_t refusal;
    size_t len;
} mudcanvas_answer;

typedef struct mudcanvas_number {
    uint64_t refusal;
    uint64_t number;
} mudcanvas_number;

typedef struct mudcanvas_listed {
    uint64_t refusal;
    bool yes;
} mudcanvas_listed;

/* begun: the runs whose start is at or below the row */
typedef struct mudcanvas_place {
    uint64_t refusal;
    uint64_t begun;
    bool listed;
} mudcanvas_place;

/* above, below: the nearest listed rows on either side, or MUDCANVAS_NONE */
typedef struct mudcanvas_nearest {
    uint64_t refusal;
    uint64_t above;
    uint64_t below;
} mudcanvas_nearest;

typedef struct mudcanvas_index_read {
    uint64_t refusal;
    uint64_t entries;
    uint64_t runs;
} mudcanvas_index_read;

/* A part of an index: its first byte's place, and its length. */
typedef struct mudcanvas_part {
    size_t at;
    size_t len;
} mudcanvas_part;

/*
 * A run: rows start to end - 1. The end is its FIRST field, as it is in
 * open-event-format: initialise the fields by their names.
 */
typedef struct mudcanvas_row_range {
    uint64_t end;
    uint64_t start;
} mudcanvas_row_range;

/* The name of a refusal, such as "MUDCANVAS_NO_ROOM". */
MUDCANVAS_CHECK static inline const char *mudcanvas_refusal_name(
    uint64_t refusal) {
    switch (refusal) {
    case MUDCANVAS_OK: return "MUDCANVAS_OK";
    case MUDCANVAS_TOO_LONG: return "MUDCANVAS_TOO_LONG";
    case MUDCANVAS_CUT_SHORT: return "MUDCANVAS_CUT_SHORT";
    case MUDCANVAS_EMPTY_RUN: return "MUDCANVAS_EMPTY_RUN";
    case MUDCANVAS_RUN_ORDER: return "MUDCANVAS_RUN_ORDER";
    case MUDCANVAS_VALUE_ORDER: return "MUDCANVAS_VALUE_ORDER";
    case MUDCANVAS_ODD_WORDS: return "MUDCANVAS_ODD_WORDS";
    case MUDCANVAS_NO_ROW: return "MUDCANVAS_NO_ROW";
    case MUDCANVAS_STEP_KIND: return "MUDCANVAS_STEP_KIND";
    case MUDCANVAS_OTHER_DIRECTORY: return "MUDCANVAS_OTHER_DIRECTORY";
    case MUDCANVAS_NO_ROOM: return "MUDCANVAS_NO_ROOM";
    case MUDCANVAS_MISSING_VALUE: return "MUDCANVAS_MISSING_VALUE";
    default: return "unknown refusal";
    }
}

/* What a refusal means, in a few words. */
MUDCANVAS_CHECK static inline const char *mudcanvas_refusal_text(
    uint64_t refusal) {
    switch (refusal) {
    case MUDCANVAS_OK: return "accepted";
    case MUDCANVAS_TOO_LONG: return "a length is above its limit";
    case MUDCANVAS_CUT_SHORT: return "bytes end inside a field or block";
    case MUDCANVAS_EMPTY_RUN: return "a run's end is not above its start";
    case MUDCANVAS_RUN_ORDER:
        return "a run's start is not above the previous end";
    case MUDCANVAS_VALUE_ORDER:
        return "an index value is not above the previous";
    case MUDCANVAS_ODD_WORDS:
        return "an odd number of words where pairs are due";
    case MUDCANVAS_NO_ROW: return "2^64 - 1 is not a row";
    case MUDCANVAS_STEP_KIND: return "a step kind is outside 1 to 4";
    case MUDCANVAS_OTHER_DIRECTORY:
        return "the directory is not the one of its data";
    case MUDCANVAS_NO_ROOM:
        return "an output is shorter than needed, or a result is past its "
               "length limit";
    case MUDCANVAS_MISSING_VALUE:
        return "a step names a value that the index lacks";
    default: return "a refusal of a later version";
    }
}

/* ---- not for callers: the exported functions, which take no null pointer, and
 * what the functions below use to call them */

uint32_t mudcanvas_raw_u32_at(const uint8_t *bytes, size_t bytes_len,
    size_t at);
uint64_t mudcanvas_raw_u64_at(const uint8_t *bytes, size_t bytes_len,
    size_t at);
uint64_t mudcanvas_raw_load_word(const uint8_t *bytes, size_t bytes_len);
mudcanvas_answer mudcanvas_raw_union(const uint64_t *left, size_t left_len,
    const uint64_t *right, size_t right_len, uint64_t *out, size_t out_len);
mudcanvas_answer mudcanvas_raw_intersect(const uint64_t *left, size_t left_len,
    const uint64_t *right, size_t right_len, uint64_t *out, size_t out_len);
mudcanvas_answer mudcanvas_raw_difference(const uint64_t *left, size_t left_len,
    const uint64_t *right, size_t right_len, uint64_t *out, size_t out_len);
mudcanvas_listed mudcanvas_raw_contains(const uint64_t *runs, size_t runs_len,
    uint64_t row);
mudcanvas_place mudcanvas_raw_search(const uint64_t *runs, size_t runs_len,
    uint64_t row);
mudcanvas_number mudcanvas_raw_count(const uint64_t *runs, size_t runs_len);
mudcanvas_nearest mudcanvas_raw_neighbours(const uint64_t *runs,
    size_t runs_len, uint64_t row);
mudcanvas_number mudcanvas_raw_first_overlap(const uint64_t *runs,
    size_t runs_len, uint64_t start, uint64_t end);
mudcanvas_listed mudcanvas_raw_ranges_contains(
    const mudcanvas_row_range *ranges, size_t ranges_len, uint64_t row);
mudcanvas_number mudcanvas_raw_ranges_count(const mudcanvas_row_range *ranges,
    size_t ranges_len);
mudcanvas_answer mudcanvas_raw_block_decode(const uint8_t *block,
    size_t block_len, uint64_t *out, size_t out_len);
mudcanvas_answer mudcanvas_raw_block_encode(const uint64_t *runs,
    size_t runs_len, uint8_t *out, size_t out_len);
mudcanvas_answer mudcanvas_raw_from_rows(const uint64_t *rows, size_t rows_len,
    uint64_t *out, size_t out_len);
mudcanvas_answer mudcanvas_raw_from_ranges(const uint64_t *ranges,
    size_t ranges_len, uint64_t *out, size_t out_len);
mudcanvas_answer mudcanvas_raw_from_packed_bits(const uint8_t *bits,
    size_t bits_len, uint64_t *out, size_t out_len);
mudcanvas_index_read mudcanvas_raw_index_decode(const uint8_t *index,
    size_t index_len);
mudcanvas_part mudcanvas_raw_index_bitmap(const uint8_t *index,
    size_t index_len, uint64_t value);
mudcanvas_answer mudcanvas_raw_index_encode(const uint8_t *index,
    size_t index_len, uint8_t *out, size_t out_len);
mudcanvas_answer mudcanvas_raw_index_insert(const uint8_t *index,
    size_t index_len, uint64_t value, const uint64_t *runs, size_t runs_len,
    uint8_t *out, size_t out_len);
mudcanvas_answer mudcanvas_raw_index_merge(const uint8_t *first,
    size_t first_len, const uint8_t *second, size_t second_len, uint8_t *out,
    size_t out_len);
mudcanvas_answer mudcanvas_raw_filter(const uint8_t *index, size_t index_len,
    const uint64_t *steps, size_t steps_len, uint64_t *out, size_t out_len,
    uint64_t *scratch, size_t scratch_len);
mudcanvas_answer mudcanvas_raw_intersect_values(const uint8_t *index,
    size_t index_len, const uint64_t *values, size_t values_len, uint64_t *out,
    size_t out_len, uint64_t *scratch, size_t scratch_len);
mudcanvas_answer mudcanvas_raw_run_directory(const uint64_t *runs,
    size_t runs_len, uint64_t *out, size_t out_len);
mudcanvas_answer mudcanvas_raw_run_rank(const uint64_t *runs, size_t runs_len,
    const uint64_t *directory, size_t directory_len, const uint64_t *positions,
    size_t positions_len, uint64_t *out, size_t out_len);
mudcanvas_answer mudcanvas_raw_run_select(const uint64_t *runs, size_t runs_len,
    const uint64_t *directory, size_t directory_len, const uint64_t *positions,
    size_t positions_len, uint64_t *out, size_t out_len);
mudcanvas_answer mudcanvas_raw_run_rank_and_contains(const uint64_t *runs,
    size_t runs_len, const uint64_t *directory, size_t directory_len,
    const uint64_t *positions, size_t positions_len, uint64_t *out,
    size_t out_len, uint64_t *flags, size_t flags_len);
mudcanvas_answer mudcanvas_raw_bit_directory(const uint8_t *bits,
    size_t bits_len, size_t len, uint64_t *out, size_t out_len);
mudcanvas_answer mudcanvas_raw_bit_rank(const uint8_t *bits, size_t bits_len,
    size_t len, const uint64_t *directory, size_t directory_len,
    const uint64_t *positions, size_t positions_len, uint64_t *out,
    size_t out_len);
mudcanvas_answer mudcanvas_raw_bit_count_range(const uint8_t *bits,
    size_t bits_len, size_t len, const uint64_t *directory,
    size_t directory_len, const uint64_t *pairs, size_t pairs_len,
    uint64_t *out, size_t out_len);
mudcanvas_number mudcanvas_raw_bit_total(const uint8_t *bits, size_t bits_len,
    size_t len, const uint64_t *directory, size_t directory_len);
mudcanvas_answer mudcanvas_raw_bit_select(const uint8_t *bits, size_t bits_len,
    size_t len, const uint64_t *directory, size_t directory_len,
    const uint64_t *ks, size_t ks_len, uint64_t *out, size_t out_len);
mudcanvas_number mudcanvas_raw_count_set_bits(const uint8_t *bits,
    size_t bits_len, size_t len);
mudcanvas_number mudcanvas_raw_present_position(const uint8_t *bits,
    size_t bits_len, size_t row);
mudcanvas_answer mudcanvas_raw_presence_directory(const uint8_t *bits,
    size_t bits_len, uint32_t *out, size_t out_len);
mudcanvas_answer mudcanvas_raw_position(const uint8_t *bits, size_t bits_len,
    const uint32_t *directory, size_t directory_len, const uint64_t *rows,
    size_t rows_len, uint64_t *out, size_t out_len);

static inline size_t mudcanvas_min_(size_t a, size_t b) {
    return a < b ? a : b;
}

/* the sum, or the greatest number where there is none */
static inline size_t mudcanvas_sum_(size_t a, size_t b) {
    return a <= SIZE_MAX - b ? a + b : SIZE_MAX;
}

/* a pointer that is valid for no elements, in place of any that has none */
static inline const uint8_t *mudcanvas_bytes_(const uint8_t *list, size_t len) {
    static const uint8_t none = 0;
    return len != 0 ? list : &none;
}

static inline const uint32_t *mudcanvas_entries_(
    const uint32_t *list, size_t len) {
    static const uint32_t none = 0;
    return len != 0 ? list : &none;
}

static inline const uint64_t *mudcanvas_words_(
    const uint64_t *list, size_t len) {
    static const uint64_t none = 0;
    return len != 0 ? list : &none;
}

static inline const mudcanvas_row_range *mudcanvas_ranges_(
    const mudcanvas_row_range *list, size_t len) {
    static const mudcanvas_row_range none = {0, 0};
    return len != 0 ? list : &none;
}

static inline uint8_t *mudcanvas_out_bytes_(uint8_t *list, size_t len) {
    static uint8_t none = 0;
    return len != 0 ? list : &none;
}

static inline uint32_t *mudcanvas_out_entries_(uint32_t *list, size_t len) {
    static uint32_t none = 0;
    return len != 0 ? list : &none;
}

static inline uint64_t *mudcanvas_out_words_(uint64_t *list, size_t len) {
    static uint64_t none = 0;
    return len != 0 ? list : &none;
}

/* ---- numbers in bytes, little-endian; bytes past the end count as 0, and
 * nothing is refused */

/* The 32-bit number at a place. */
MUDCANVAS_CHECK static inline uint32_t mudcanvas_u32_at(const uint8_t *bytes,
    size_t bytes_len, size_t at) {
    return mudcanvas_raw_u32_at(mudcanvas_bytes_(bytes, bytes_len), bytes_len,
        at);
}

/* The 64-bit number at a place. */
MUDCANVAS_CHECK static inline uint64_t mudcanvas_u64_at(const uint8_t *bytes,
    size_t bytes_len, size_t at) {
    return mudcanvas_raw_u64_at(mudcanvas_bytes_(bytes, bytes_len), bytes_len,
        at);
}

/* The 64-bit number in front. */
MUDCANVAS_CHECK static inline uint64_t mudcanvas_load_word(const uint8_t *bytes,
    size_t bytes_len) {
    return mudcanvas_raw_load_word(mudcanvas_bytes_(bytes, bytes_len),
        bytes_len);
}

/* ---- run lists */

/* Words for the result of mudcanvas_union: those of both lists. */
static inline size_t mudcanvas_union_bound(size_t left_len, size_t right_len) {
    return mudcanvas_min_(
        mudcanvas_sum_(left_len, right_len), MUDCANVAS_MAX_WORDS);
}

/*
 * The rows in either list, as a run list.
 * Refusals: MUDCANVAS_TOO_LONG (left, right); faults of left, then of right;
 * MUDCANVAS_NO_ROOM.
 */
MUDCANVAS_CHECK static inline mudcanvas_answer mudcanvas_union(
    const uint64_t *left, size_t left_len, const uint64_t *right,
    size_t right_len, uint64_t *out, size_t out_len) {
    return mudcanvas_raw_union(mudcanvas_words_(left, left_len), left_len,
        mudcanvas_words_(right, right_len), right_len,
        mudcanvas_out_words_(out, out_len), out_len);
}

/* Words for the result of mudcanvas_intersect: those of both lists. */
static inline size_t mudcanvas_intersect_bound(
    size_t left_len, size_t right_len) {
    return mudcanvas_union_bound(left_len, right_len);
}

/* The rows in both lists, as a run list. Refusals: as mudcanvas_union. */
MUDCANVAS_CHECK static inline mudcanvas_answer mudcanvas_intersect(
    const uint64_t *left, size_t left_len, const uint64_t *right,
    size_t right_len, uint64_t *out, size_t out_len) {
    return mudcanvas_raw_intersect(mudcanvas_words_(left, left_len), left_len,
        mudcanvas_words_(right, right_len), right_len,
        mudcanvas_out_words_(out, out_len), out_len);
}

/*
 * Words for the result of mudcanvas_difference: those of both lists. The left
 * list's are not enough: 0-10 without 1-2, 3-4, 5-6 has four runs.
 */
static inline size_t mudcanvas_difference_bound(
    size_t left_len, size_t right_len) {
    return mudcanvas_union_bound(left_len, right_len);
}

/*
 * The rows in the left list and not in the right one, as a run list.
 * Refusals: as mudcanvas_union.
 */
MUDCANVAS_CHECK static inline mudcanvas_answer mudcanvas_difference(
    const uint64_t *left, size_t left_len, const uint64_t *right,
    size_t right_len, uint64_t *out, size_t out_len) {
    return mudcanvas_raw_difference(mudcanvas_words_(left, left_len), left_len,
        mudcanvas_words_(right, right_len), right_len,
        mudcanvas_out_words_(out, out_len), out_len);
}

/*
 * Whether a row is listed; row 2^64 - 1 never is. One pass to validate, then a
 * binary search.
 * Refusals: MUDCANVAS_TOO_LONG, faults of the list.
 */
MUDCANVAS_CHECK static inline mudcanvas_listed mudcanvas_contains(
    const uint64_t *runs, size_t runs_len, uint64_t row) {
    return mudcanvas_raw_contains(mudcanvas_words_(runs, runs_len), runs_len,
        row);
}

/*
 * Where a row is among the runs: begun, the number of runs whose start is at
 * or below it; and whether it is listed. A listed row is in run begun - 1. Any
 * other is in the gap between run begun - 1 and run begun, that is from
 * runs[2 * begun - 1] on and below runs[2 * begun]; the first gap has no run
 * before it, and the last none after it. Cost: as mudcanvas_contains.
 * Refusals: MUDCANVAS_TOO_LONG, faults of the list.
 */
MUDCANVAS_CHECK static inline mudcanvas_place mudcanvas_search(
    const uint64_t *runs, size_t runs_len, uint64_t row) {
    return mudcanvas_raw_search(mudcanvas_words_(runs, runs_len), runs_len,
        row);
}

/*
 * The number of listed rows. Refusals: MUDCANVAS_TOO_LONG, faults of the list.
 */
MUDCANVAS_CHECK static inline mudcanvas_number mudcanvas_count(
    const uint64_t *runs, size_t runs_len) {
    return mudcanvas_raw_count(mudcanvas_words_(runs, runs_len), runs_len);
}

/*
 * The nearest listed row at or above a row, and the nearest at or below it: a
 * listed row is both. MUDCANVAS_NONE where there is none. Given in place of a
 * row, 2^64 - 1 is answered as rows are: none is above it, and the last listed
 * row is below it. Cost: as mudcanvas_contains.
 * Refusals: MUDCANVAS_TOO_LONG, faults of the list.
 */
MUDCANVAS_CHECK static inline mudcanvas_nearest mudcanvas_neighbours(
    const uint64_t *runs, size_t runs_len, uint64_t row) {
    return mudcanvas_raw_neighbours(mudcanvas_words_(runs, runs_len), runs_len,
        row);
}

/*
 * The first run that shares a row with the range from start to end, end not
 * included: its number in the list, counted from 0, or MUDCANVAS_NONE. A run
 * that only touches the range shares no row with it. Cost: as
 * mudcanvas_contains.
 * Refusals: MUDCANVAS_TOO_LONG, faults of the list; MUDCANVAS_EMPTY_RUN where
 * end <= start.
 */
MUDCANVAS_CHECK static inline mudcanvas_number mudcanvas_first_overlap(
    const uint64_t *runs, size_t runs_len, uint64_t start, uint64_t end) {
    return mudcanvas_raw_first_overlap(mudcanvas_words_(runs, runs_len),
        runs_len, start, end);
}

/*
 * mudcanvas_contains for runs as records, at most MUDCANVAS_MAX_ROWS of them.
 * In one pass.
 * Refusals: MUDCANVAS_TOO_LONG, MUDCANVAS_EMPTY_RUN, MUDCANVAS_RUN_ORDER.
 */
MUDCANVAS_CHECK static inline mudcanvas_listed mudcanvas_ranges_contains(
    const mudcanvas_row_range *ranges, size_t ranges_len, uint64_t row) {
    return mudcanvas_raw_ranges_contains(mudcanvas_ranges_(ranges, ranges_len),
        ranges_len, row);
}

/*
 * mudcanvas_count for runs as records.
 * Refusals: as mudcanvas_ranges_contains.
 */
MUDCANVAS_CHECK static inline mudcanvas_number mudcanvas_ranges_count(
    const mudcanvas_row_range *ranges, size_t ranges_len) {
    return mudcanvas_raw_ranges_count(mudcanvas_ranges_(ranges, ranges_len),
        ranges_len);
}

/* ---- blocks */

/* Words for the result of mudcanvas_block_decode: two for each 16 bytes. */
static inline size_t mudcanvas_block_decode_bound(size_t block_len) {
    size_t len = mudcanvas_min_(block_len, MUDCANVAS_MAX_BYTES);
    return len < 4 ? 0 : (len - 4) / 16 * 2;
}

/*
 * The run list of a block.
 * Refusals: MUDCANVAS_TOO_LONG, faults of the block, MUDCANVAS_NO_ROOM.
 */
MUDCANVAS_CHECK static inline mudcanvas_answer mudcanvas_block_decode(
    const uint8_t *block, size_t block_len, uint64_t *out, size_t out_len) {
    return mudcanvas_raw_block_decode(mudcanvas_bytes_(block, block_len),
        block_len, mudcanvas_out_words_(out, out_len), out_len);
}

/*
 * Bytes of the result of mudcanvas_block_encode, exactly: 4, and 16 for each
 * run.
 */
static inline size_t mudcanvas_block_encode_bound(size_t runs_len) {
    return 4 + 8 * mudcanvas_min_(runs_len, MUDCANVAS_MAX_WORDS);
}

/*
 * The block of a run list.
 * Refusals: MUDCANVAS_TOO_LONG, faults of the list, MUDCANVAS_NO_ROOM.
 */
MUDCANVAS_CHECK static inline mudcanvas_answer mudcanvas_block_encode(
    const uint64_t *runs, size_t runs_len, uint8_t *out, size_t out_len) {
    return mudcanvas_raw_block_encode(mudcanvas_words_(runs, runs_len),
        runs_len, mudcanvas_out_bytes_(out, out_len), out_len);
}

/* ---- building run lists */

/* Words that mudcanvas_from_rows needs, exactly: two for each row. */
static inline size_t mudcanvas_from_rows_bound(size_t rows_len) {
    return 2 * mudcanvas_min_(rows_len, MUDCANVAS_MAX_ROWS);
}

/*
 * The run list of rows in any order, repeats allowed. It clears the needed
 * words after the result. Sorted, reversed and dense rows take one pass; others
 * are sorted, in O(n log n).
 * Refusals: MUDCANVAS_TOO_LONG, MUDCANVAS_NO_ROW, MUDCANVAS_NO_ROOM.
 */
MUDCANVAS_CHECK static inline mudcanvas_answer mudcanvas_from_rows(
    const uint64_t *rows, size_t rows_len, uint64_t *out, size_t out_len) {
    return mudcanvas_raw_from_rows(mudcanvas_words_(rows, rows_len), rows_len,
        mudcanvas_out_words_(out, out_len), out_len);
}

/* Words that mudcanvas_from_ranges needs, exactly: as many as are given. */
static inline size_t mudcanvas_from_ranges_bound(size_t ranges_len) {
    return mudcanvas_min_(ranges_len, MUDCANVAS_MAX_WORDS);
}

/*
 * The run list of ranges start, end, start, end, .. in any order: empty ones
 * (end <= start) are dropped, overlapping and touching ones joined. It clears
 * the needed words after the result. Cost: as mudcanvas_from_rows.
 * Refusals: MUDCANVAS_TOO_LONG, MUDCANVAS_ODD_WORDS, MUDCANVAS_NO_ROOM.
 */
MUDCANVAS_CHECK static inline mudcanvas_answer mudcanvas_from_ranges(
    const uint64_t *ranges, size_t ranges_len, uint64_t *out, size_t out_len) {
    return mudcanvas_raw_from_ranges(mudcanvas_words_(ranges, ranges_len),
        ranges_len, mudcanvas_out_words_(out, out_len), out_len);
}

/* Words for the result of mudcanvas_from_packed_bits: eight for each byte. */
static inline size_t mudcanvas_from_packed_bits_bound(size_t bits_len) {
    return bits_len <= MUDCANVAS_MAX_WORDS / 8 ? 8 * bits_len
                                               : MUDCANVAS_MAX_WORDS;
}

/*
 * The run list of packed bits: row r is bit r mod 8, lowest first, of byte
 * r div 8.
 * Refusals: MUDCANVAS_TOO_LONG, MUDCANVAS_NO_ROOM.
 */
MUDCANVAS_CHECK static inline mudcanvas_answer mudcanvas_from_packed_bits(
    const uint8_t *bits, size_t bits_len, uint64_t *out, size_t out_len) {
    return mudcanvas_raw_from_packed_bits(mudcanvas_bytes_(bits, bits_len),
        bits_len, mudcanvas_out_words_(out, out_len), out_len);
}

/* ---- index bytes */

/*
 * The number of entries, and of the runs of all entries together.
 * Refusals: MUDCANVAS_TOO_LONG, faults of the index.
 */
MUDCANVAS_CHECK static inline mudcanvas_index_read mudcanvas_index_decode(
    const uint8_t *index, size_t index_len) {
    return mudcanvas_raw_index_decode(mudcanvas_bytes_(index, index_len),
        index_len);
}

/*
 * Where the block of a value is in the index: 4 bytes and 16 for each run. Both
 * numbers are 0 where the value is missing, and where the index is refused.
 */
MUDCANVAS_CHECK static inline mudcanvas_part mudcanvas_index_bitmap(
    const uint8_t *index, size_t index_len, uint64_t value) {
    return mudcanvas_raw_index_bitmap(mudcanvas_bytes_(index, index_len),
        index_len, value);
}

/* Bytes for the result of mudcanvas_index_encode: those of the index. */
static inline size_t mudcanvas_index_encode_bound(size_t index_len) {
    return mudcanvas_min_(index_len, MUDCANVAS_MAX_BYTES);
}

/*
 * The index without the bytes that reading ignores, its block lengths exact.
 * Refusals: MUDCANVAS_TOO_LONG, faults of the index, MUDCANVAS_NO_ROOM.
 */
MUDCANVAS_CHECK static inline mudcanvas_answer mudcanvas_index_encode(
    const uint8_t *index, size_t index_len, uint8_t *out, size_t out_len) {
    return mudcanvas_raw_index_encode(mudcanvas_bytes_(index, index_len),
        index_len, mudcanvas_out_bytes_(out, out_len), out_len);
}

/*
 * Bytes for the result of mudcanvas_index_insert: those of the index, 16, and 8
 * for each word of the runs.
 */
static inline size_t mudcanvas_index_insert_bound(
    size_t index_len, size_t runs_len) {
    size_t runs = mudcanvas_min_(runs_len, MUDCANVAS_MAX_WORDS);
    return mudcanvas_min_(
        mudcanvas_sum_(index_len, 16 + 8 * runs), MUDCANVAS_MAX_BYTES);
}

/*
 * The index with runs under a value: a value that it has gets the union of its
 * runs and these, a new one an entry, even with no runs.
 * Refusals: MUDCANVAS_TOO_LONG (index, runs); faults of the index, then of the
 * runs; MUDCANVAS_NO_ROOM.
 */
MUDCANVAS_CHECK static inline mudcanvas_answer mudcanvas_index_insert(
    const uint8_t *index, size_t index_len, uint64_t value,
    const uint64_t *runs, size_t runs_len, uint8_t *out, size_t out_len) {
    return mudcanvas_raw_index_insert(mudcanvas_bytes_(index, index_len),
        index_len, value, mudcanvas_words_(runs, runs_len), runs_len,
        mudcanvas_out_bytes_(out, out_len), out_len);
}

/*
 * Bytes for the result of mudcanvas_index_merge: those of both indexes, less
 * the 4 of one entry count.
 */
static inline size_t mudcanvas_index_merge_bound(
    size_t first_len, size_t second_len) {
    size_t both = mudcanvas_sum_(first_len, second_len);
    return mudcanvas_min_(both < 4 ? 0 : both - 4, MUDCANVAS_MAX_BYTES);
}

/*
 * One index of two: all values of both; a value that both have gets the union
 * of its runs. An entry without runs stays an entry. The result has no bytes
 * that reading ignores.
 * Refusals: MUDCANVAS_TOO_LONG (first, second); faults of the first, then of
 * the second; MUDCANVAS_NO_ROOM.
 */
MUDCANVAS_CHECK static inline mudcanvas_answer mudcanvas_index_merge(
    const uint8_t *first, size_t first_len, const uint8_t *second,
    size_t second_len, uint8_t *out, size_t out_len) {
    return mudcanvas_raw_index_merge(mudcanvas_bytes_(first, first_len),
        first_len, mudcanvas_bytes_(second, second_len), second_len,
        mudcanvas_out_bytes_(out, out_len), out_len);
}

/* ---- filters */

/*
 * Words that mudcanvas_filter needs, exactly, in the output and in the scratch:
 * two for each run of the index. The runs are those of mudcanvas_index_decode.
 */
static inline size_t mudcanvas_filter_bound(uint64_t runs) {
    return runs <= SIZE_MAX / 2 ? 2 * runs : SIZE_MAX;
}

/*
 * The rows that steps keep, as a run list. The steps are kind, value, kind,
 * value, ..; none are kept at first, and each step changes the kept rows, by
 * the rows of its value (enum mudcanvas_step). The index must have an entry for
 * the value of each step; an entry without runs is one. It clears the needed
 * words of the output after the result, and those of the scratch. One pass over
 * the index, then for each step one over the entries up to its value and one
 * over the kept rows and the rows of its value.
 * Refusals: MUDCANVAS_TOO_LONG (index, steps); faults of the index;
 * MUDCANVAS_ODD_WORDS, MUDCANVAS_STEP_KIND; MUDCANVAS_MISSING_VALUE;
 * MUDCANVAS_NO_ROOM (out, scratch).
 */
MUDCANVAS_CHECK static inline mudcanvas_answer mudcanvas_filter(
    const uint8_t *index, size_t index_len, const uint64_t *steps,
    size_t steps_len, uint64_t *out, size_t out_len, uint64_t *scratch,
    size_t scratch_len) {
    return mudcanvas_raw_filter(mudcanvas_bytes_(index, index_len), index_len,
        mudcanvas_words_(steps, steps_len), steps_len,
        mudcanvas_out_words_(out, out_len), out_len,
        mudcanvas_out_words_(scratch, scratch_len), scratch_len);
}

/* Words that mudcanvas_intersect_values needs: as mudcanvas_filter. */
static inline size_t mudcanvas_intersect_values_bound(uint64_t runs) {
    return mudcanvas_filter_bound(runs);
}

/*
 * The rows that all values have; none where no values are given, and none
 * where the index lacks one of them. It clears as mudcanvas_filter does.
 * Refusals: MUDCANVAS_TOO_LONG (index, values); faults of the index;
 * MUDCANVAS_NO_ROOM (out, scratch).
 */
MUDCANVAS_CHECK static inline mudcanvas_answer mudcanvas_intersect_values(
    const uint8_t *index, size_t index_len, const uint64_t *values,
    size_t values_len, uint64_t *out, size_t out_len, uint64_t *scratch,
    size_t scratch_len) {
    return mudcanvas_raw_intersect_values(mudcanvas_bytes_(index, index_len),
        index_len, mudcanvas_words_(values, values_len), values_len,
        mudcanvas_out_words_(out, out_len), out_len,
        mudcanvas_out_words_(scratch, scratch_len), scratch_len);
}

/* ---- rank and select over run lists
 *
 * The caller keeps the directory of a run list; each call compares it with the
 * list. Then each position is a binary search. A directory without the total,
 * as versions before 0.3 wrote it, is refused with MUDCANVAS_OTHER_DIRECTORY.
 *
 * Rank does not count the position itself: it is the number of listed rows
 * below it. (CRoaring's rank counts the rows up to and including it.) */

/*
 * Words of the result of mudcanvas_run_directory, exactly: one for each run,
 * and the total.
 */
static inline size_t mudcanvas_run_directory_bound(size_t runs_len) {
    return mudcanvas_min_(runs_len, MUDCANVAS_MAX_WORDS) / 2 + 1;
}

/*
 * The directory of a run list: for each run, the rows in the runs before it;
 * the last word is the total, the rows in all runs.
 * Refusals: MUDCANVAS_TOO_LONG, faults of the list, MUDCANVAS_NO_ROOM.
 */
MUDCANVAS_CHECK static inline mudcanvas_answer mudcanvas_run_directory(
    const uint64_t *runs, size_t runs_len, uint64_t *out, size_t out_len) {
    return mudcanvas_raw_run_directory(mudcanvas_words_(runs, runs_len),
        runs_len, mudcanvas_out_words_(out, out_len), out_len);
}

/* Words of the result of mudcanvas_run_rank, exactly: one for each position. */
static inline size_t mudcanvas_run_rank_bound(size_t positions_len) {
    return positions_len;
}

/*
 * For each position, the number of listed rows below it.
 * Refusals: MUDCANVAS_TOO_LONG, faults of the list, MUDCANVAS_OTHER_DIRECTORY,
 * MUDCANVAS_NO_ROOM.
 */
MUDCANVAS_CHECK static inline mudcanvas_answer mudcanvas_run_rank(
    const uint64_t *runs, size_t runs_len, const uint64_t *directory,
    size_t directory_len, const uint64_t *positions, size_t positions_len,
    uint64_t *out, size_t out_len) {
    return mudcanvas_raw_run_rank(mudcanvas_words_(runs, runs_len), runs_len,
        mudcanvas_words_(directory, directory_len), directory_len,
        mudcanvas_words_(positions, positions_len), positions_len,
        mudcanvas_out_words_(out, out_len), out_len);
}

/*
 * Words of the result of mudcanvas_run_select, exactly: one for each position.
 */
static inline size_t mudcanvas_run_select_bound(size_t positions_len) {
    return positions_len;
}

/*
 * For each position k, the listed row with exactly k listed rows below it, or
 * MUDCANVAS_NONE. Refusals: as mudcanvas_run_rank.
 */
MUDCANVAS_CHECK static inline mudcanvas_answer mudcanvas_run_select(
    const uint64_t *runs, size_t runs_len, const uint64_t *directory,
    size_t directory_len, const uint64_t *positions, size_t positions_len,
    uint64_t *out, size_t out_len) {
    return mudcanvas_raw_run_select(mudcanvas_words_(runs, runs_len), runs_len,
        mudcanvas_words_(directory, directory_len), directory_len,
        mudcanvas_words_(positions, positions_len), positions_len,
        mudcanvas_out_words_(out, out_len), out_len);
}

/*
 * Words of each result of mudcanvas_run_rank_and_contains, exactly: one for
 * each position.
 */
static inline size_t mudcanvas_run_rank_and_contains_bound(
    size_t positions_len) {
    return positions_len;
}

/*
 * For each position, the number of listed rows below it in out, and in flags 1
 * where it is listed, else 0. Refusals: as mudcanvas_run_rank, with
 * MUDCANVAS_NO_ROOM for out or flags.
 */
MUDCANVAS_CHECK static inline mudcanvas_answer mudcanvas_run_rank_and_contains(
    const uint64_t *runs, size_t runs_len, const uint64_t *directory,
    size_t directory_len, const uint64_t *positions, size_t positions_len,
    uint64_t *out, size_t out_len, uint64_t *flags, size_t flags_len) {
    return mudcanvas_raw_run_rank_and_contains(mudcanvas_words_(runs, runs_len),
        runs_len, mudcanvas_words_(directory, directory_len), directory_len,
        mudcanvas_words_(positions, positions_len), positions_len,
        mudcanvas_out_words_(out, out_len), out_len,
        mudcanvas_out_words_(flags, flags_len), flags_len);
}

/* ---- rank and select over packed bits
 *
 * Bit p is bit p mod 8, lowest first, of byte p div 8. len is cut to 8 times
 * the bytes, and bits at or past it never count. The caller keeps the
 * directory; each call counts the bits anew to compare it. Rank does not count
 * the position itself. */

/* Words of the result of mudcanvas_bit_directory, exactly: len / 512 + 1. */
static inline size_t mudcanvas_bit_directory_bound(
    size_t bits_len, size_t len) {
    size_t bits = 8 * mudcanvas_min_(bits_len, MUDCANVAS_MAX_PACKED);
    return mudcanvas_min_(len, bits) / 512 + 1;
}

/*
 * The directory of packed bits: for each block of 512, the set bits before it.
 * Refusals: MUDCANVAS_TOO_LONG, MUDCANVAS_NO_ROOM.
 */
MUDCANVAS_CHECK static inline mudcanvas_answer mudcanvas_bit_directory(
    const uint8_t *bits, size_t bits_len, size_t len, uint64_t *out,
    size_t out_len) {
    return mudcanvas_raw_bit_directory(mudcanvas_bytes_(bits, bits_len),
        bits_len, len, mudcanvas_out_words_(out, out_len), out_len);
}

/* Words of the result of mudcanvas_bit_rank, exactly: one for each position. */
static inline size_t mudcanvas_bit_rank_bound(size_t positions_len) {
    return positions_len;
}

/*
 * For each position, the number of set bits before it and before len.
 * Refusals: MUDCANVAS_TOO_LONG, MUDCANVAS_OTHER_DIRECTORY, MUDCANVAS_NO_ROOM.
 */
MUDCANVAS_CHECK static inline mudcanvas_answer mudcanvas_bit_rank(
    const uint8_t *bits, size_t bits_len, size_t len, const uint64_t *directory,
    size_t directory_len, const uint64_t *positions, size_t positions_len,
    uint64_t *out, size_t out_len) {
    return mudcanvas_raw_bit_rank(mudcanvas_bytes_(bits, bits_len), bits_len,
        len, mudcanvas_words_(directory, directory_len), directory_len,
        mudcanvas_words_(positions, positions_len), positions_len,
        mudcanvas_out_words_(out, out_len), out_len);
}

/* Words of the result of mudcanvas_bit_count_range, exactly: one for a pair. */
static inline size_t mudcanvas_bit_count_range_bound(size_t pairs_len) {
    return pairs_len / 2;
}

/*
 * For each pair start, end, the number of set bits from start up to end, end
 * not included, and before len; 0 where end <= start.
 * Refusals: MUDCANVAS_TOO_LONG, MUDCANVAS_ODD_WORDS, MUDCANVAS_OTHER_DIRECTORY,
 * MUDCANVAS_NO_ROOM.
 */
MUDCANVAS_CHECK static inline mudcanvas_answer mudcanvas_bit_count_range(
    const uint8_t *bits, size_t bits_len, size_t len, const uint64_t *directory,
    size_t directory_len, const uint64_t *pairs, size_t pairs_len,
    uint64_t *out, size_t out_len) {
    return mudcanvas_raw_bit_count_range(mudcanvas_bytes_(bits, bits_len),
        bits_len, len, mudcanvas_words_(directory, directory_len),
        directory_len, mudcanvas_words_(pairs, pairs_len), pairs_len,
        mudcanvas_out_words_(out, out_len), out_len);
}

/*
 * The number of set bits before len.
 * Refusals: MUDCANVAS_TOO_LONG, MUDCANVAS_OTHER_DIRECTORY.
 */
MUDCANVAS_CHECK static inline mudcanvas_number mudcanvas_bit_total(
    const uint8_t *bits, size_t bits_len, size_t len, const uint64_t *directory,
    size_t directory_len) {
    return mudcanvas_raw_bit_total(mudcanvas_bytes_(bits, bits_len), bits_len,
        len, mudcanvas_words_(directory, directory_len), directory_len);
}

/* Words of the result of mudcanvas_bit_select, exactly: one for each k. */
static inline size_t mudcanvas_bit_select_bound(size_t ks_len) {
    return ks_len;
}

/*
 * For each k, the place of the set bit with exactly k set bits before it and
 * with a place before len, or MUDCANVAS_NONE: from the total on.
 * Refusals: MUDCANVAS_TOO_LONG, MUDCANVAS_OTHER_DIRECTORY, MUDCANVAS_NO_ROOM.
 */
MUDCANVAS_CHECK static inline mudcanvas_answer mudcanvas_bit_select(
    const uint8_t *bits, size_t bits_len, size_t len, const uint64_t *directory,
    size_t directory_len, const uint64_t *ks, size_t ks_len, uint64_t *out,
    size_t out_len) {
    return mudcanvas_raw_bit_select(mudcanvas_bytes_(bits, bits_len), bits_len,
        len, mudcanvas_words_(directory, directory_len), directory_len,
        mudcanvas_words_(ks, ks_len), ks_len,
        mudcanvas_out_words_(out, out_len), out_len);
}

/* ---- presence: the position of a set row is the number of set rows before it.
 * Row r is bit r mod 8, lowest first, of byte r div 8. */

/*
 * The number of set bits before len, without a directory.
 * Refusal: MUDCANVAS_TOO_LONG.
 */
MUDCANVAS_CHECK static inline mudcanvas_number mudcanvas_count_set_bits(
    const uint8_t *bits, size_t bits_len, size_t len) {
    return mudcanvas_raw_count_set_bits(mudcanvas_bytes_(bits, bits_len),
        bits_len, len);
}

/*
 * The position of a row; MUDCANVAS_NONE where it is clear or past the bytes. It
 * counts from the first byte: for many rows use mudcanvas_position.
 * Refusal: MUDCANVAS_TOO_LONG.
 */
MUDCANVAS_CHECK static inline mudcanvas_number mudcanvas_present_position(
    const uint8_t *bits, size_t bits_len, size_t row) {
    return mudcanvas_raw_present_position(mudcanvas_bytes_(bits, bits_len),
        bits_len, row);
}

/*
 * Elements of the result of mudcanvas_presence_directory, exactly: one for
 * every eight bytes, and one for what is left over.
 */
static inline size_t mudcanvas_presence_directory_bound(size_t bits_len) {
    return (mudcanvas_min_(bits_len, MUDCANVAS_MAX_PACKED) + 7) / 8;
}

/*
 * The directory of presence: for every 64 bits, the set bits before them.
 * Refusals: MUDCANVAS_TOO_LONG, MUDCANVAS_NO_ROOM.
 */
MUDCANVAS_CHECK static inline mudcanvas_answer mudcanvas_presence_directory(
    const uint8_t *bits, size_t bits_len, uint32_t *out, size_t out_len) {
    return mudcanvas_raw_presence_directory(mudcanvas_bytes_(bits, bits_len),
        bits_len, mudcanvas_out_entries_(out, out_len), out_len);
}

/* Words of the result of mudcanvas_position, exactly: one for each row. */
static inline size_t mudcanvas_position_bound(size_t rows_len) {
    return rows_len;
}

/*
 * For each row, its position; MUDCANVAS_NONE where it is clear or past the
 * bytes. The directory is compared with the bits in each call.
 * Refusals: MUDCANVAS_TOO_LONG, MUDCANVAS_OTHER_DIRECTORY, MUDCANVAS_NO_ROOM.
 */
MUDCANVAS_CHECK static inline mudcanvas_answer mudcanvas_position(
    const uint8_t *bits, size_t bits_len, const uint32_t *directory,
    size_t directory_len, const uint64_t *rows, size_t rows_len, uint64_t *out,
    size_t out_len) {
    return mudcanvas_raw_position(mudcanvas_bytes_(bits, bits_len), bits_len,
        mudcanvas_entries_(directory, directory_len), directory_len,
        mudcanvas_words_(rows, rows_len), rows_len,
        mudcanvas_out_words_(out, out_len), out_len);
}

#ifdef __cplusplus
}
#endif

#endif
