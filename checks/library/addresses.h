/* The geometry of addresses, for programs of random calls, of whose header it takes `must`. */

static unsigned level(uint32_t address) { unsigned it = 0; while (address >> it > 3) it++; return it; }

/* The corners of an address as places in the heights, by the halves on the way to it. */
static void corners(uint32_t address, size_t side, uint32_t place[3]) {
    long m = (long)side - 1, at[3][2] = { { 0, 0 }, { m, 0 }, { 0, m } };
    if (address >> level(address) == 3) at[0][0] = at[0][1] = m, at[1][0] = 0, at[1][1] = m, at[2][0] = m, at[2][1] = 0;
    for (unsigned k = level(address); k-- > 0;) {
        long middle[2] = { (at[1][0] + at[2][0]) / 2, (at[1][1] + at[2][1]) / 2 };
        int kept = (address >> k & 1) == 0 ? 1 : 2; /* the end of the base that the half has */
        if (kept == 1) memcpy(at[2], at[1], sizeof at[2]), memcpy(at[1], at[0], sizeof at[1]);
        else memcpy(at[1], at[2], sizeof at[1]), memcpy(at[2], at[0], sizeof at[2]);
        memcpy(at[0], middle, sizeof middle);
    }
    for (int c = 0; c < 3; c++) place[c] = (uint32_t)(((long)side - 1 - at[c][1]) * (long)side + at[c][0]);
}

/* Leaves in order cover the square once: each begins where the one before ends. */
static inline void test_leaves(const uint32_t *leaf, uint32_t count, size_t side) {
    uint32_t end = (uint32_t)2 << 22;
    for (uint32_t k = 0; k < count; k++) {
        must(leaf[k] >= 2 && leaf[k] < 4 * (uint32_t)((side - 1) * (side - 1)), "an address that the grid does not have");
        must(leaf[k] << (22 - level(leaf[k])) == end, "the leaves do not lie one behind the other");
        end += (uint32_t)1 << (22 - level(leaf[k]));
    }
    must(end == (uint32_t)4 << 22, "the leaves do not cover the square");
}

/* Twice the area of a triangle of points, counterclockwise. */
static inline int64_t doubled(const int64_t p[2], const int64_t q[2], const int64_t r[2]) {
    return (q[0] - p[0]) * (r[1] - p[1]) - (r[0] - p[0]) * (q[1] - p[1]);
}
