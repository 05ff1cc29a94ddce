// CRoaring's run containers and sdsl's rank and select support, as C functions.
#include <cstring>
#include <roaring/roaring.h>
#include <sdsl/bit_vectors.hpp>

struct Bits {
    sdsl::bit_vector bits;
    sdsl::rank_support_v5<1> rank;
    sdsl::select_support_mcl<1> select;
};

extern "C" {
void *peer_roaring(const uint64_t *words, size_t n) {
    roaring_bitmap_t *r = roaring_bitmap_create();
    for (size_t i = 0; i + 1 < n; i += 2) roaring_bitmap_add_range_closed(r, (uint32_t)words[i], (uint32_t)(words[i + 1] - 1));
    roaring_bitmap_run_optimize(r);
    return r;
}
void peer_roaring_free(void *r) { roaring_bitmap_free((roaring_bitmap_t *)r); }
// the combination by its number: 0 or, 1 and, 2 and not. Returns a new set.
void *peer_combine(const void *a, const void *b, int op) {
    const roaring_bitmap_t *x = (const roaring_bitmap_t *)a, *y = (const roaring_bitmap_t *)b;
    return op == 0 ? roaring_bitmap_or(x, y) : op == 1 ? roaring_bitmap_and(x, y) : roaring_bitmap_andnot(x, y);
}
// the rows below each position
void peer_ranks(const void *a, const uint64_t *positions, size_t n, uint64_t *out) {
    for (size_t i = 0; i < n; i++) out[i] = positions[i] == 0 ? 0 : roaring_bitmap_rank((const roaring_bitmap_t *)a, (uint32_t)(positions[i] - 1));
}
void peer_selects(const void *a, const uint64_t *ks, size_t n, uint64_t *out) {
    for (size_t i = 0; i < n; i++) {
        uint32_t row;
        out[i] = roaring_bitmap_select((const roaring_bitmap_t *)a, (uint32_t)ks[i], &row) ? row : UINT64_MAX;
    }
}
void *peer_bits(const unsigned char *bytes, size_t n) {
    Bits *s = new Bits;
    s->bits = sdsl::bit_vector(n * 8, 0);
    std::memcpy(s->bits.data(), bytes, n);
    sdsl::util::init_support(s->rank, &s->bits);
    sdsl::util::init_support(s->select, &s->bits);
    return s;
}
void peer_bits_free(void *s) { delete (Bits *)s; }
void peer_bit_ranks(const void *s, const uint64_t *positions, size_t n, uint64_t *out) {
    for (size_t i = 0; i < n; i++) out[i] = ((const Bits *)s)->rank(positions[i]);
}
// sdsl counts from 1
void peer_bit_selects(const void *s, const uint64_t *ks, size_t n, uint64_t *out) {
    for (size_t i = 0; i < n; i++) out[i] = ((const Bits *)s)->select(ks[i] + 1);
}
}
