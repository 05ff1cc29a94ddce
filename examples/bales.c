/*
 * From bytes to rows: two groups of bales become an index, a filter keeps some of
 * them, rank and select count in what is left, and a refusal is handled. Valid C11
 * and C++; link with libmudcanvas.a.
 */
#include <inttypes.h>
#include <stdio.h>
#include <stdlib.h>

#include "mudcanvas.h"

/* An empty list may be null, so that malloc(0) is no special case. */
static void *room(size_t count, size_t size) {
    void *list = malloc(count * size);
    if (list == NULL && count != 0) {
        fprintf(stderr, "no memory\n");
        exit(1);
    }
    return list;
}

static uint64_t *room_for_words(size_t count) {
    return (uint64_t *)room(count, sizeof(uint64_t));
}

static uint8_t *room_for_bytes(size_t count) {
    return (uint8_t *)room(count, 1);
}

/* The length of an answer that must not be a refusal. */
static size_t accepted(mudcanvas_answer answer) {
    if (answer.refusal != MUDCANVAS_OK) {
        fprintf(stderr, "refused: %s\n", mudcanvas_refusal_name(answer.refusal));
        exit(1);
    }
    return answer.len;
}

static void print_runs(const char *name, const uint64_t *runs, size_t len) {
    printf("%s:", name);
    for (size_t i = 0; i < len; i += 2) {
        printf(" %" PRIu64 "-%" PRIu64, runs[i], runs[i + 1]);
    }
    printf("\n");
}

int main(void) {
    /* the bales that stand 3 pressed, as they came, and those of moisture band 7,
     * rows 2 to 6 */
    const uint64_t rows[] = {8, 0, 1, 7, 2, 3, 6};
    const uint64_t ranges[] = {2, 7};
    const size_t rows_len = sizeof(rows) / sizeof(rows[0]);
    const size_t ranges_len = sizeof(ranges) / sizeof(ranges[0]);

    size_t stand_room = mudcanvas_from_rows_bound(rows_len);
    uint64_t *stand = room_for_words(stand_room);
    size_t stand_len =
        accepted(mudcanvas_from_rows(rows, rows_len, stand, stand_room));
    print_runs("stand 3", stand, stand_len);

    size_t band_room = mudcanvas_from_ranges_bound(ranges_len);
    uint64_t *band = room_for_words(band_room);
    size_t band_len =
        accepted(mudcanvas_from_ranges(ranges, ranges_len, band, band_room));
    print_runs("band 7", band, band_len);

    /* an index by inserts, each into another buffer */
    const uint8_t empty[] = MUDCANVAS_EMPTY_INDEX;
    size_t first_room = mudcanvas_index_insert_bound(sizeof(empty), stand_len);
    uint8_t *first = room_for_bytes(first_room);
    size_t first_len = accepted(mudcanvas_index_insert(
        empty, sizeof(empty), 3, stand, stand_len, first, first_room));

    size_t index_room = mudcanvas_index_insert_bound(first_len, band_len);
    uint8_t *index = room_for_bytes(index_room);
    size_t index_len = accepted(mudcanvas_index_insert(
        first, first_len, 7, band, band_len, index, index_room));

    mudcanvas_index_read read = mudcanvas_index_decode(index, index_len);
    printf("index: %zu bytes, %" PRIu64 " values, %" PRIu64 " runs\n", index_len,
        read.entries, read.runs);

    /* a filter: the rows of value 3 that value 7 does not have */
    const uint64_t steps[] = {MUDCANVAS_TAKE, 3, MUDCANVAS_WITHOUT, 7};
    size_t need = mudcanvas_filter_bound(read.runs);
    uint64_t *kept = room_for_words(need);
    uint64_t *scratch = room_for_words(need);
    size_t kept_len = accepted(mudcanvas_filter(index, index_len, steps,
        sizeof(steps) / sizeof(steps[0]), kept, need, scratch, need));
    print_runs("kept", kept, kept_len);

    /* rank and select in what is kept */
    size_t directory_room = mudcanvas_run_directory_bound(kept_len);
    uint64_t *directory = room_for_words(directory_room);
    size_t directory_len = accepted(
        mudcanvas_run_directory(kept, kept_len, directory, directory_room));
    printf("kept rows: %" PRIu64 "\n", directory[directory_len - 1]);

    const uint64_t row = 8;
    uint64_t rank;
    (void)accepted(mudcanvas_run_rank(
        kept, kept_len, directory, directory_len, &row, 1, &rank, 1));
    printf("kept rows below row %" PRIu64 ": %" PRIu64 "\n", row, rank);

    const uint64_t numbers[] = {3, 4};
    uint64_t found[2];
    (void)accepted(mudcanvas_run_select(
        kept, kept_len, directory, directory_len, numbers, 2, found, 2));
    for (size_t i = 0; i < 2; i++) {
        printf("kept row number %" PRIu64 ": ", numbers[i]);
        if (found[i] == MUDCANVAS_NONE) {
            printf("none\n");
        } else {
            printf("%" PRIu64 "\n", found[i]);
        }
    }

    /* runs that touch are no run list; the output is left as it was */
    const uint64_t touching[] = {0, 3, 3, 5};
    mudcanvas_answer answer =
        mudcanvas_index_insert(index, index_len, 9, touching, 4, first, first_room);
    if (answer.refusal != MUDCANVAS_OK) {
        printf("refused with %" PRIu64 ": %s\n", answer.refusal,
            mudcanvas_refusal_text(answer.refusal));
    }

    free(stand);
    free(band);
    free(first);
    free(index);
    free(kept);
    free(scratch);
    free(directory);
    return 0;
}
