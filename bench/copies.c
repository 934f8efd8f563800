// The peer of `bench_layouts copy FROM TO ROWS AGAIN`: the same copies between the same bytes, by loops written by hand.
//
//   copies fixed|general aos|soa|aosoa aos|soa|aosoa ROWS AGAIN
//
// `fixed`: a copy for each pair of forms whose offsets and sizes the compiler knows, so that it tests no value: all bytes at once where both
// forms are one, run by run between arrays and blocks, and else leaf by leaf. `general`: a loop that goes by the plans of both tables; it stores
// a row only after it has tested all leaves of the row.
#include "layouts.h"

typedef bool copy_rows(const struct table *, struct table *);

// The tables are copied into locals, since a store of a byte could else change where they lie.
#define FIXED_LEAVES(from, to)                                                                                         \
    __attribute__((noinline)) static bool copy_fixed_##from##_##to(const struct table *source, struct table *target) { \
        const struct table old = *source, new = *target;                                                               \
        for (uint32_t row = 0; row < old.rows; row++)                                                                  \
            _Pragma("GCC unroll 4") for (unsigned leaf = 0; leaf < LEAVES; leaf++)                                     \
                store(fixed_##to(&new, row, leaf), 8 * fixed_bytes(leaf), get_fixed_##from(&old, row, leaf));          \
        return true;                                                                                                   \
    }

// The values of a leaf that lie in one block.
#define FIXED_RUNS(from, to)                                                                                           \
    __attribute__((noinline)) static bool copy_fixed_##from##_##to(const struct table *source, struct table *target) { \
        const struct table old = *source, new = *target;                                                               \
        uint32_t row = 0;                                                                                              \
        for (; row + LANES <= old.rows; row += LANES)                                                                  \
            _Pragma("GCC unroll 4") for (unsigned leaf = 0; leaf < LEAVES; leaf++)                                     \
                memcpy(fixed_##to(&new, row, leaf), fixed_##from(&old, row, leaf), LANES *fixed_bytes(leaf));          \
        for (unsigned leaf = 0; leaf < LEAVES; leaf++)                                                                 \
            memcpy(fixed_##to(&new, row, leaf), fixed_##from(&old, row, leaf), (old.rows - row) * fixed_bytes(leaf));  \
        return true;                                                                                                   \
    }

#define FIXED_WHOLE(form)                                                                                              \
    __attribute__((noinline)) static bool copy_fixed_##form##_##form(const struct table *source,                       \
                                                                     struct table *target) {                           \
        memcpy(target->bytes, source->bytes, source->size);                                                            \
        return true;                                                                                                   \
    }

FIXED_WHOLE(aos)
FIXED_WHOLE(soa)
FIXED_WHOLE(aosoa)
FIXED_LEAVES(aos, soa)
FIXED_LEAVES(aos, aosoa)
FIXED_LEAVES(soa, aos)
FIXED_LEAVES(aosoa, aos)
FIXED_RUNS(soa, aosoa)
FIXED_RUNS(aosoa, soa)

#define GENERAL_LEAVES(from, to)                                                                                       \
    __attribute__((noinline)) static bool copy_general_##from##_##to(const struct table *source,                       \
                                                                     struct table *target) {                           \
        const struct table old = *source, new = *target;                                                               \
        for (uint32_t row = 0; row < old.rows; row++) {                                                                \
            number values[LEAVES];                                                                                     \
            _Pragma("GCC unroll 4") for (unsigned leaf = 0; leaf < LEAVES; leaf++) {                                   \
                values[leaf] = get_general_##from(&old, row, leaf);                                                    \
                if (values[leaf] < new.leaves[leaf].least || values[leaf] > new.leaves[leaf].greatest)                 \
                    return false;                                                                                      \
            }                                                                                                          \
            _Pragma("GCC unroll 4") for (unsigned leaf = 0; leaf < LEAVES; leaf++)                                     \
                store(general_##to(&new, row, leaf), new.leaves[leaf].width, values[leaf]);                            \
        }                                                                                                              \
        return true;                                                                                                   \
    }

#define GENERAL_COPIES(from)                                                                                           \
    GENERAL_LEAVES(from, aos)                                                                                          \
    GENERAL_LEAVES(from, soa)                                                                                          \
    GENERAL_LEAVES(from, aosoa)

GENERAL_COPIES(aos)
GENERAL_COPIES(soa)
GENERAL_COPIES(aosoa)

#define ROW_OF(kind, from)                                                                                             \
    { copy_##kind##_##from##_aos, copy_##kind##_##from##_soa, copy_##kind##_##from##_aosoa }

static copy_rows *const COPIES[2][3][3] = {
    {ROW_OF(fixed, aos), ROW_OF(fixed, soa), ROW_OF(fixed, aosoa)},
    {ROW_OF(general, aos), ROW_OF(general, soa), ROW_OF(general, aosoa)},
};

// Writes one table, copies it to the other, and then again so many times.
static bool copied(const struct work *work, copy_rows *copy, struct table *source, struct table *target,
                   uint32_t again) {
    if (!work->write(source, 1) || !copy(source, target))
        return false;
    for (uint32_t round = 0; round < again; round++)
        if (!copy(source, target))
            return false;
    return true;
}

int main(int count, char **words) {
    int kind = count == 6 ? index_of(words[1], KINDS, 2) : -1;
    int from = count == 6 ? index_of(words[2], FORMS, 3) : -1;
    int to = count == 6 ? index_of(words[3], FORMS, 3) : -1;
    if (kind < 0 || from < 0 || to < 0) {
        puts("usage: copies fixed|general aos|soa|aosoa aos|soa|aosoa ROWS AGAIN");
        return USAGE;
    }
    struct table source, target;
    number sum;
    uint32_t rows = (uint32_t)strtoul(words[4], NULL, 10);
    if (!make_table(&source, (enum form)from, rows) || !make_table(&target, (enum form)to, rows) ||
        !copied(&WORKS[kind][from], COPIES[kind][from][to], &source, &target, (uint32_t)strtoul(words[5], NULL, 10)) ||
        !WORKS[kind][to].read(&target, 1, &sum)) {
        puts("fault");
        return FAULT;
    }
    print_number(sum);
    return 0;
}
