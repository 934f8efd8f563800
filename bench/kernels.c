// The peer of `bench_layouts kernel NAME FORM LANES ROWS ROUNDS`: the same kernels over the same bytes, in 64 bits too, as loops written by hand.
//
//   kernels fixed|general axpy|clamp|sum|least|greatest|count aos|soa|aosoa ROWS ROUNDS
//
// `fixed`: loops over values that lie a known number of bytes apart, of which a compiler may make vector code. `general`: row by row, by the
// accessors that go by a plan.
#include "layouts.h"

// The leaves and the constants of the kernels: y becomes FACTOR * x + y, or is brought into LEAST to GREATEST.
enum { X = 1, Y = 2, FACTOR = 3, LEAST = -100, GREATEST = 100, BOUND = 4 };

// A kernel goes on from the number that was given before. False where a value does not fit.
typedef bool kernel(const struct table *table, int64_t *given);

#define INLINE __attribute__((always_inline)) static inline

// ---- fixed: some rows, each value so many bytes behind the one before

struct span {
    unsigned char *x, *y;
    size_t step_x, step_y, rows;
};

INLINE int64_t x_of(struct span span, size_t row) {
    return (int64_t)load(span.x + row * span.step_x, 8 * fixed_bytes(X), true);
}

INLINE int64_t y_of(struct span span, size_t row) {
    return (int64_t)load(span.y + row * span.step_y, 8 * fixed_bytes(Y), true);
}

INLINE void put_y(struct span span, size_t row, int64_t value) {
    store(span.y + row * span.step_y, 8 * fixed_bytes(Y), value);
}

// Tests all values of some rows before it stores the first of them.
INLINE bool axpy_some(struct span span, size_t first, size_t rows) {
    int64_t values[LANES];
    bool fits = true;
    for (size_t row = 0; row < rows; row++) {
        values[row] = FACTOR * x_of(span, first + row) + y_of(span, first + row);
        fits &= INT32_MIN <= values[row] && values[row] <= INT32_MAX;
    }
    for (size_t row = 0; fits && row < rows; row++)
        put_y(span, first + row, values[row]);
    return fits;
}

INLINE bool axpy_span(struct span span, int64_t *given) {
    size_t row = 0;
    bool fits = true;
    (void)given;
    for (; fits && row + LANES <= span.rows; row += LANES)
        fits = axpy_some(span, row, LANES);
    for (; fits && row < span.rows; row++)
        fits = axpy_some(span, row, 1);
    return fits;
}

static inline int64_t clamped(int64_t y) { return y < LEAST ? LEAST : y > GREATEST ? GREATEST : y; }

INLINE bool clamp_span(struct span span, int64_t *given) {
    (void)given;
    for (size_t row = 0; row < span.rows; row++)
        put_y(span, row, clamped(y_of(span, row)));
    return true;
}

// The plan of a table is copied into a local, since a store of a byte could else change where the table lies.
INLINE struct span span_of(const struct table *table, uint32_t row,
                           unsigned char *(*at)(const struct table *, uint32_t, unsigned), size_t step_x, size_t step_y,
                           uint32_t rows) {
    return (struct span){at(table, row, X), at(table, row, Y), step_x, step_y, rows};
}

#define FIXED(name)                                                                                                    \
    __attribute__((noinline)) static bool name##_fixed_aos(const struct table *old, int64_t *given) {                  \
        const struct table table = *old;                                                                               \
        return name##_span(span_of(&table, 0, fixed_aos, ROW_BYTES, ROW_BYTES, table.rows), given);                    \
    }                                                                                                                  \
    __attribute__((noinline)) static bool name##_fixed_soa(const struct table *old, int64_t *given) {                  \
        const struct table table = *old;                                                                               \
        return name##_span(span_of(&table, 0, fixed_soa, fixed_bytes(X), fixed_bytes(Y), table.rows), given);          \
    }                                                                                                                  \
    __attribute__((noinline)) static bool name##_fixed_aosoa(const struct table *old, int64_t *given) {                \
        const struct table table = *old;                                                                               \
        uint32_t row = 0;                                                                                              \
        bool fits = true;                                                                                              \
        for (; fits && row + LANES <= table.rows; row += LANES)                                                        \
            fits = name##_span(span_of(&table, row, fixed_aosoa, fixed_bytes(X), fixed_bytes(Y), LANES), given);       \
        return fits &&                                                                                                 \
               name##_span(span_of(&table, row, fixed_aosoa, fixed_bytes(X), fixed_bytes(Y), table.rows - row),        \
                           given);                                                                                     \
    }

// ---- general: row by row

#define GENERAL_STORES(form)                                                                                           \
    __attribute__((noinline)) static bool axpy_general_##form(const struct table *old, int64_t *given) {               \
        struct table table = *old;                                                                                     \
        (void)given;                                                                                                   \
        for (uint32_t row = 0; row < table.rows; row++)                                                                \
            if (!set_general_##form(&table, row, Y,                                                                    \
                                    FACTOR * (int64_t)get_general_##form(&table, row, X) +                             \
                                        (int64_t)get_general_##form(&table, row, Y)))                                  \
                return false;                                                                                          \
        return true;                                                                                                   \
    }                                                                                                                  \
    __attribute__((noinline)) static bool clamp_general_##form(const struct table *old, int64_t *given) {              \
        struct table table = *old;                                                                                     \
        (void)given;                                                                                                   \
        for (uint32_t row = 0; row < table.rows; row++)                                                                \
            if (!set_general_##form(&table, row, Y, clamped((int64_t)get_general_##form(&table, row, Y))))             \
                return false;                                                                                          \
        return true;                                                                                                   \
    }

#define GENERAL_NUMBER(name, form, next)                                                                               \
    __attribute__((noinline)) static bool name##_general_##form(const struct table *old, int64_t *given) {             \
        const struct table table = *old;                                                                               \
        int64_t n = *given;                                                                                            \
        for (uint32_t row = 0; row < table.rows; row++) {                                                              \
            int64_t y = (int64_t)get_general_##form(&table, row, Y);                                                   \
            n = next;                                                                                                  \
        }                                                                                                              \
        *given = n;                                                                                                    \
        return true;                                                                                                   \
    }

// ---- both: a kernel that makes a number n of all values y

#define NUMBER(name, next)                                                                                             \
    INLINE bool name##_span(struct span span, int64_t *given) {                                                        \
        int64_t n = *given;                                                                                            \
        for (size_t row = 0; row < span.rows; row++) {                                                                 \
            int64_t y = y_of(span, row);                                                                               \
            n = next;                                                                                                  \
        }                                                                                                              \
        *given = n;                                                                                                    \
        return true;                                                                                                   \
    }                                                                                                                  \
    FIXED(name)                                                                                                        \
    GENERAL_NUMBER(name, aos, next)                                                                                    \
    GENERAL_NUMBER(name, soa, next)                                                                                    \
    GENERAL_NUMBER(name, aosoa, next)

FIXED(axpy)
FIXED(clamp)
GENERAL_STORES(aos)
GENERAL_STORES(soa)
GENERAL_STORES(aosoa)
NUMBER(sum, n + y)
NUMBER(least, y < n ? y : n)
NUMBER(greatest, y > n ? y : n)
NUMBER(count, n + (y >= BOUND))

// ---- the work, which is what is measured

struct named {
    const char *name;
    int64_t start;
    kernel *runs[2][3];
};

#define NAMED(name, start)                                                                                             \
    {                                                                                                                  \
#name, start, {                                                                                                \
            {name##_fixed_aos, name##_fixed_soa, name##_fixed_aosoa}, {                                                \
                name##_general_aos, name##_general_soa, name##_general_aosoa                                           \
            }                                                                                                          \
        }                                                                                                              \
    }

static const struct named NAMES[] = {
    NAMED(sum, 0),  NAMED(axpy, 0), NAMED(clamp, 0), NAMED(least, INT64_MAX), NAMED(greatest, INT64_MIN),
    NAMED(count, 0)};

enum { NAME_COUNT = sizeof NAMES / sizeof *NAMES };

// Runs a kernel so many times, and adds to the sum what it gives.
static bool run(const struct named *named, const struct table *table, int kind, int form, uint32_t rounds,
                number *sum) {
    for (uint32_t round = 0; round < rounds; round++) {
        int64_t given = named->start;
        if (!named->runs[kind][form](table, &given))
            return false;
        *sum += given;
    }
    return true;
}

int main(int count, char **words) {
    int kind = count == 6 ? index_of(words[1], KINDS, 2) : -1, name = 0;
    int form = count == 6 ? index_of(words[3], FORMS, 3) : -1;
    while (count == 6 && name < NAME_COUNT && strcmp(words[2], NAMES[name].name) != 0)
        name++;
    if (kind < 0 || form < 0 || name == NAME_COUNT) {
        puts("usage: kernels fixed|general axpy|clamp|sum|least|greatest|count aos|soa|aosoa ROWS ROUNDS");
        return USAGE;
    }
    struct table table;
    number sum = 0;
    // the kernel runs over the table that one round of writes leaves; then the sum of y tells what is left
    if (!make_table(&table, (enum form)form, (uint32_t)strtoul(words[4], NULL, 10)) ||
        !WORKS[kind][form].write(&table, 1) ||
        !run(&NAMES[name], &table, kind, form, (uint32_t)strtoul(words[5], NULL, 10), &sum) ||
        !run(&NAMES[0], &table, kind, form, 1, &sum)) {
        puts("fault");
        return FAULT;
    }
    print_number(sum);
    return 0;
}
