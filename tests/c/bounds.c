/* bounds TABLE: compares the bound functions of mudcanvas.h with a table of lines `call length length bound`. The second length is 0 for a call with one. */
#include "mudcanvas.h"

#include <inttypes.h>
#include <stdio.h>
#include <string.h>

typedef struct {
    const char *call;
    size_t (*one)(size_t);
    size_t (*two)(size_t, size_t);
} bound;

static size_t filter(size_t runs) { return mudcanvas_filter_bound(runs); }
static size_t intersect_values(size_t runs) { return mudcanvas_intersect_values_bound(runs); }

static const bound bounds[] = {
    {"union", NULL, mudcanvas_union_bound},
    {"intersect", NULL, mudcanvas_intersect_bound},
    {"difference", NULL, mudcanvas_difference_bound},
    {"index_insert", NULL, mudcanvas_index_insert_bound},
    {"index_merge", NULL, mudcanvas_index_merge_bound},
    {"bit_directory", NULL, mudcanvas_bit_directory_bound},
    {"block_decode", mudcanvas_block_decode_bound, NULL},
    {"block_encode", mudcanvas_block_encode_bound, NULL},
    {"from_rows", mudcanvas_from_rows_bound, NULL},
    {"from_ranges", mudcanvas_from_ranges_bound, NULL},
    {"from_packed_bits", mudcanvas_from_packed_bits_bound, NULL},
    {"index_encode", mudcanvas_index_encode_bound, NULL},
    {"filter", filter, NULL},
    {"intersect_values", intersect_values, NULL},
    {"run_directory", mudcanvas_run_directory_bound, NULL},
    {"run_rank", mudcanvas_run_rank_bound, NULL},
    {"run_select", mudcanvas_run_select_bound, NULL},
    {"run_rank_and_contains", mudcanvas_run_rank_and_contains_bound, NULL},
    {"bit_rank", mudcanvas_bit_rank_bound, NULL},
    {"bit_count_range", mudcanvas_bit_count_range_bound, NULL},
    {"bit_select", mudcanvas_bit_select_bound, NULL},
    {"presence_directory", mudcanvas_presence_directory_bound, NULL},
    {"position", mudcanvas_position_bound, NULL},
};
enum { BOUNDS = sizeof(bounds) / sizeof(bounds[0]) };

static size_t seen[BOUNDS];

static size_t find(const char *call) {
    size_t i = 0;
    while (i < BOUNDS && strcmp(bounds[i].call, call) != 0) {
        i++;
    }
    return i;
}

int main(int argc, char **argv) {
    FILE *table = argc == 2 ? fopen(argv[1], "r") : NULL;
    if (table == NULL) {
        printf("bounds: give the table\n");
        return 2;
    }
    int passed = 0, failed = 0;
    char call[64];
    size_t a, b, want;
    while (fscanf(table, "%63s %zu %zu %zu", call, &a, &b, &want) == 4) {
        size_t i = find(call);
        if (i == BOUNDS) {
            printf("bounds: no call %s\n", call);
            failed++;
            continue;
        }
        seen[i]++;
        size_t got = bounds[i].one != NULL ? bounds[i].one(a) : bounds[i].two(a, b);
        if (got == want) {
            passed++;
        } else {
            printf("bounds: %s %zu %zu is %zu, not %zu\n", call, a, b, got, want);
            failed++;
        }
    }
    fclose(table);
    for (size_t i = 0; i < BOUNDS; i++) {
        if (seen[i] == 0) {
            printf("bounds: %s is not in the table\n", bounds[i].call);
            failed++;
        }
    }
    printf("bounds: %d passed, %d failed\n", passed, failed);
    return failed != 0;
}
