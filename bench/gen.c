// The peer of `llama gen N`: the same dataset, the same six tables under the same layouts, and the same work on them, by structs and
// arrays that are written by hand.
//
//   gen N
#include <stdbool.h>
#include <stdint.h>
#include <stdio.h>
#include <stdlib.h>
#include <string.h>

enum { X, Y, MASS, HOT, H0, H1, ID, LEAVES };
enum { LANES = 8, ROW_BYTES = 23, BIT_ROW_BYTES = 18, ID_BITS = 34, MOST_ROW_TEXT = 80 };

static const char *const NAMES[LEAVES] = {"pos.x", "pos.y", "mass", "hot", "h[0]", "h[1]", "id"};
static const int64_t LEAST[LEAVES] = {INT32_MIN, INT32_MIN, 0, 0, 0, 0, 0};
static const int64_t GREATEST[LEAVES] = {INT32_MAX, INT32_MAX, UINT16_MAX, 1, UINT8_MAX, UINT8_MAX, INT64_MAX};

struct packed {
    int32_t x, y;
    uint16_t mass;
    uint8_t hot, h[2];
    uint64_t id;
} __attribute__((packed));

struct block {
    int32_t x[LANES], y[LANES];
    uint16_t mass[LANES];
    uint8_t hot[LANES], h[2][LANES];
    uint64_t id[LANES];
} __attribute__((packed));

static size_t rows;
static uint64_t reads[LEAVES], writes[LEAVES];

// the tables
static struct packed *a;
static struct {
    int32_t *x, *y;
    uint16_t *mass;
    uint8_t *hot, *h[2];
    uint64_t *id;
} b;
static struct block *c;
// in bits: id has 40 of them, the others all of theirs
static uint8_t *d;
// pos with its bytes in reverse order, then an array each; id in 34 bits
static struct {
    uint8_t *pos, *hot, *h[2], *id;
    uint16_t *mass;
} e;
// byte by byte, the least significant first
static uint8_t *f;

static void *zeros(size_t count, size_t size) {
    void *made = calloc(count + 1, size);
    if (!made)
        exit(1);
    return made;
}

#define BY_LEAF(leaf, x, y, mass, hot, h0, h1, id)                                                                     \
    switch (leaf) {                                                                                                    \
    case X:                                                                                                            \
        x;                                                                                                             \
    case Y:                                                                                                            \
        y;                                                                                                             \
    case MASS:                                                                                                         \
        mass;                                                                                                          \
    case HOT:                                                                                                          \
        hot;                                                                                                           \
    case H0:                                                                                                           \
        h0;                                                                                                            \
    case H1:                                                                                                           \
        h1;                                                                                                            \
    default:                                                                                                           \
        id;                                                                                                            \
    }

#define FIELDS(name, to_x, to_y, to_mass, to_hot, to_h0, to_h1, to_id)                                                 \
    static inline int64_t get_##name(size_t row, unsigned leaf) {                                                      \
        BY_LEAF(leaf, return to_x, return to_y, return to_mass, return to_hot, return to_h0, return to_h1,             \
                return (int64_t)to_id)                                                                                 \
    }                                                                                                                  \
    static inline void put_##name(size_t row, unsigned leaf, int64_t value) {                                          \
        BY_LEAF(leaf, to_x = (int32_t)value; break, to_y = (int32_t)value; break, to_mass = (uint16_t)value; break,    \
                to_hot = (uint8_t)value; break, to_h0 = (uint8_t)value; break, to_h1 = (uint8_t)value; break,          \
                to_id = (uint64_t)value; break)                                                                        \
    }

FIELDS(a, a[row].x, a[row].y, a[row].mass, a[row].hot, a[row].h[0], a[row].h[1], a[row].id)
FIELDS(b, b.x[row], b.y[row], b.mass[row], b.hot[row], b.h[0][row], b.h[1][row], b.id[row])
#define LANE(leaf) c[row / LANES].leaf[row % LANES]
FIELDS(c, LANE(x), LANE(y), LANE(mass), LANE(hot), LANE(h[0]), LANE(h[1]), LANE(id))

// Numbers of some bytes, little-endian, with the sign of the leaf.
static inline int64_t load(const uint8_t *at, unsigned bytes, bool is_signed) {
    uint64_t word = 0;
    memcpy(&word, at, bytes);
    return is_signed ? (int32_t)word : (int64_t)word;
}

static inline void store(uint8_t *at, unsigned bytes, int64_t value) {
    memcpy(at, &value, bytes);
}

static const unsigned BYTES[LEAVES] = {4, 4, 2, 1, 1, 1, 8}, FIRST[LEAVES] = {0, 4, 8, 10, 11, 12, 13}, BIT_BYTES[LEAVES] = {4, 4, 2, 1, 1, 1, 5};

static inline int64_t get_d(size_t row, unsigned leaf) {
    return load(d + row * BIT_ROW_BYTES + FIRST[leaf], BIT_BYTES[leaf], leaf <= Y);
}

static inline void put_d(size_t row, unsigned leaf, int64_t value) {
    store(d + row * BIT_ROW_BYTES + FIRST[leaf], BIT_BYTES[leaf], value);
}

static inline int64_t get_f(size_t row, unsigned leaf) {
    return load(f + row * ROW_BYTES + FIRST[leaf], BYTES[leaf], leaf <= Y);
}

static inline void put_f(size_t row, unsigned leaf, int64_t value) {
    store(f + row * ROW_BYTES + FIRST[leaf], BYTES[leaf], value);
}

static inline int64_t get_e(size_t row, unsigned leaf) {
    uint32_t word;
    uint64_t bits;
    switch (leaf) {
    case X:
    case Y:
        memcpy(&word, e.pos + 4 * (leaf * rows + row), sizeof word);
        return (int32_t)__builtin_bswap32(word);
    case MASS:
        return e.mass[row];
    case HOT:
        return e.hot[row];
    case H0:
    case H1:
        return e.h[leaf - H0][row];
    default:
        memcpy(&bits, e.id + ID_BITS * row / 8, sizeof bits);
        return (int64_t)(bits >> (ID_BITS * row % 8) & (((uint64_t)1 << ID_BITS) - 1));
    }
}

static inline void put_e(size_t row, unsigned leaf, int64_t value) {
    const uint64_t mask = ((uint64_t)1 << ID_BITS) - 1;
    const unsigned shift = ID_BITS * row % 8;
    uint32_t word;
    uint64_t bits;
    switch (leaf) {
    case X:
    case Y:
        word = __builtin_bswap32((uint32_t)value);
        memcpy(e.pos + 4 * (leaf * rows + row), &word, sizeof word);
        break;
    case MASS:
        e.mass[row] = (uint16_t)value;
        break;
    case HOT:
        e.hot[row] = (uint8_t)value;
        break;
    case H0:
    case H1:
        e.h[leaf - H0][row] = (uint8_t)value;
        break;
    default:
        memcpy(&bits, e.id + ID_BITS * row / 8, sizeof bits);
        bits = (bits & ~(mask << shift)) | ((uint64_t)value & mask) << shift;
        memcpy(e.id + ID_BITS * row / 8, &bits, sizeof bits);
    }
}

static inline void check(unsigned leaf, int64_t value) {
    if (value < LEAST[leaf] || value > GREATEST[leaf])
        exit(1);
}

static inline void check_bits(unsigned leaf, int64_t value, unsigned bits) {
    if (leaf == ID && value >> bits)
        exit(1);
}

#define NO_MORE(leaf, value)
#define COPY(from, to, more)                                                                                           \
    for (size_t row = 0; row < rows; row++)                                                                            \
        for (unsigned leaf = 0; leaf < LEAVES; leaf++) {                                                               \
            int64_t value = get_##from(row, leaf);                                                                     \
            check(leaf, value);                                                                                        \
            more(leaf, value);                                                                                         \
            put_##to(row, leaf, value);                                                                                \
        }
#define IN_40(leaf, value) check_bits(leaf, value, 40)
#define IN_34(leaf, value) check_bits(leaf, value, ID_BITS)

// Reads and stores of the table that counts.
static inline int64_t counted_get(size_t row, unsigned leaf) {
    reads[leaf]++;
    return get_a(row, leaf);
}

static inline void counted_put(size_t row, unsigned leaf, int64_t value) {
    check(leaf, value);
    writes[leaf]++;
    put_a(row, leaf, value);
}

static char *made_text(void) {
    char *text = zeros(rows + 1, MOST_ROW_TEXT), *end = text + sprintf(text, "pos.x,pos.y,mass,hot,h[0],h[1],id\n");
    for (size_t row = 0; row < rows; row++)
        end += sprintf(end, "%zu,%zd,%zu,%zu,%zu,%zu,%zu\n", row, -(ssize_t)row, row % 1000, row % 2, row % 256, 255 - row % 256, 65537 * row);
    return text;
}

static void load_text(const char *text) {
    const char *at = strchr(text, '\n') + 1;
    for (size_t row = 0; row < rows; row++)
        for (unsigned leaf = 0; leaf < LEAVES; leaf++) {
            bool negative = *at == '-';
            int64_t value = 0;
            for (at += negative; *at >= '0' && *at <= '9'; at++)
                value = 10 * value + (*at - '0');
            at++;
            counted_put(row, leaf, negative ? -value : value);
        }
}

static void make_tables(void) {
    a = zeros(rows, sizeof *a);
    b.x = zeros(rows, 4), b.y = zeros(rows, 4), b.mass = zeros(rows, 2), b.hot = zeros(rows, 1), b.id = zeros(rows, 8);
    b.h[0] = zeros(rows, 1), b.h[1] = zeros(rows, 1);
    c = zeros(rows / LANES + 1, sizeof *c);
    d = zeros(rows, BIT_ROW_BYTES);
    e.pos = zeros(rows, 8), e.mass = zeros(rows, 2), e.hot = zeros(rows, 1), e.id = zeros(rows + 8, 5);
    e.h[0] = zeros(rows, 1), e.h[1] = zeros(rows, 1);
    f = zeros(rows, ROW_BYTES);
}

static void work(void) {
    for (size_t row = 0; row < rows; row++)
        if (counted_get(row, HOT)) {
            int64_t x = counted_get(row, X) * 2, mass = counted_get(row, MASS) + 1;
            counted_put(row, X, x);
            counted_put(row, MASS, mass);
        }
    for (unsigned leaf = 0; leaf < LEAVES; leaf++)
        reads[leaf] += rows;
    COPY(a, b, NO_MORE)
    for (size_t row = 0; row < rows; row++) {
        int64_t y = get_b(row, Y) - get_b(row, X);
        check(Y, y);
        put_b(row, Y, y);
    }
    COPY(b, c, NO_MORE)
    for (size_t row = 0; row < rows; row++) {
        int64_t y = 3 * get_c(row, X) + get_c(row, Y);
        check(Y, y);
        put_c(row, Y, y);
    }
    COPY(c, d, IN_40)
    COPY(d, e, IN_34)
    COPY(e, f, NO_MORE)
}

static void tell(void) {
    int64_t sum_x = 0, sum_y = 0, most = 0;
    size_t count = 0;
    for (size_t row = 0; row < rows; row++)
        sum_x += get_f(row, X);
    for (size_t row = 0; row < rows; row++)
        sum_y += get_f(row, Y);
    for (size_t row = 0; row < rows; row++)
        most = get_f(row, ID) > most ? get_f(row, ID) : most;
    for (size_t row = 0; row < rows; row++)
        count += get_e(row, HOT) && get_e(row, H0) > get_e(row, H1);
    printf("%ld\n%ld\n%ld\n%zu\nleaf,reads,writes\n", (long)sum_x, (long)sum_y, (long)most, count);
    for (unsigned leaf = 0; leaf < LEAVES; leaf++)
        printf("%s,%lu,%lu\n", NAMES[leaf], (unsigned long)reads[leaf], (unsigned long)writes[leaf]);
}

int main(int count, char **words) {
    rows = count == 2 ? strtoul(words[1], NULL, 10) : 0;
    if (rows < 1 || rows > 65536)
        return 2;
    char *text = made_text();
    make_tables();
    load_text(text);
    work();
    tell();
    return 0;
}
