/* llama_layout_places.h: numbers read by their places, with no call, and written in bytes that lly_lend gave.
 *
 *     lly_column x;
 *     if (lly_column_of(&view, leaf, &x, &fault) == LLY_DONE) { .. lly_number(x.blob, &x.places, row) .. }
 *
 * What lly_place tells is proved. This is C, which is tested and not proved: that it reads and writes what is told. llama_layout.h says what the caller owes.
 */
#ifndef LLAMA_LAYOUT_PLACES_H
#define LLAMA_LAYOUT_PLACES_H

#include <string.h>

#include "llama_layout.h"

/* The binary digits of a number below 2^32, each with a 0 behind it. */
static inline uint64_t lly_apart(uint64_t number)
{
    number = (number | number << 16) & UINT64_C(0x0000ffff0000ffff);
    number = (number | number << 8) & UINT64_C(0x00ff00ff00ff00ff);
    number = (number | number << 4) & UINT64_C(0x0f0f0f0f0f0f0f0f);
    number = (number | number << 2) & UINT64_C(0x3333333333333333);
    return (number | number << 1) & UINT64_C(0x5555555555555555);
}

/* Where the number in a row begins. */
static inline uint64_t lly_spot(const lly_places *places, uint64_t row)
{
    const uint64_t group = row / places->lanes, rest = row % places->lanes;

    if (places->in_digits) {
        return places->base + (lly_apart(group) << 1 | lly_apart(rest)) * places->block;
    }
    return places->base + group * places->block + rest * places->lane;
}

/* How many rows from one on, and so many at most, lie evenly: each `lane` behind the one before it. */
static inline uint64_t lly_even(const lly_places *places, uint64_t row, uint64_t most)
{
    const uint64_t left = places->in_digits ? 1 : places->lanes - row % places->lanes;

    return left < most ? left : most;
}

/* The bits from one on, at most 57, of which there are so many: one load of eight bytes, all of them in the blob. */
static inline uint64_t lly_bits(const uint8_t *blob, uint64_t bytes, uint64_t bit, uint32_t width)
{
    uint64_t at = bit / 8, word = 0;

    if (bytes < 8) {
        memcpy(&word, blob, (size_t)bytes);
        at = 0;
    } else {
        at = at <= bytes - 8 ? at : bytes - 8;
        memcpy(&word, blob + at, 8);
    }
    return word >> (bit - 8 * at) & ~(~UINT64_C(0) << width);
}

/* The one, two, four or eight bytes from one on. */
static inline uint64_t lly_word(const uint8_t *at, uint32_t width)
{
    uint16_t two;
    uint32_t four;
    uint64_t eight;

    switch (width) {
    case 8:
        return *at;
    case 16:
        memcpy(&two, at, sizeof two);
        return two;
    case 32:
        memcpy(&four, at, sizeof four);
        return four;
    default:
        memcpy(&eight, at, sizeof eight);
        return eight;
    }
}

/* The bytes of a number the other way round. */
static inline uint64_t lly_turned(uint64_t number, uint32_t width)
{
    number = (number & UINT64_C(0x00ff00ff00ff00ff)) << 8 | (number >> 8 & UINT64_C(0x00ff00ff00ff00ff));
    number = (number & UINT64_C(0x0000ffff0000ffff)) << 16 | (number >> 16 & UINT64_C(0x0000ffff0000ffff));
    return (number << 32 | number >> 32) >> (64 - width);
}

/* The number that begins there: its low 64 bits, which are a negative one of a `u64` from 2^63 on. */
static inline int64_t lly_number_at(const uint8_t *blob, const lly_places *places, uint64_t spot)
{
    const uint64_t half = places->is_signed ? UINT64_C(1) << (places->width - 1) : 0;
    uint64_t number;

    if (places->in_bits) {
        number = lly_bits(blob, places->bytes, spot, places->width);
    } else {
        number = lly_word(blob + spot, places->width);
        number = places->is_turned ? lly_turned(number, places->width) : number;
    }
    return (int64_t)((number ^ half) - half);
}

/* The number in a row. */
static inline int64_t lly_number(const uint8_t *blob, const lly_places *places, uint64_t row)
{
    return lly_number_at(blob, places, lly_spot(places, row));
}

/* Makes the number that begins there this one, of which the low bits stay that have a place. */
static inline void lly_put_number_at(uint8_t *blob, const lly_places *places, uint64_t spot, int64_t number)
{
    uint64_t left = (uint64_t)number;
    uint32_t width = places->width, bits;

    if (!places->in_bits) {
        left = places->is_turned ? lly_turned(left, width) : left;
        memcpy(blob + spot, &left, width / 8);
        return;
    }
    for (; width > 0; width -= bits, left >>= bits, spot += bits) {
        const uint32_t at = spot % 8;
        uint8_t *const byte = blob + spot / 8;

        bits = width < 8 - at ? width : 8 - at;
        *byte = (uint8_t)((*byte & ~(((1u << bits) - 1) << at)) | (left & ((1u << bits) - 1)) << at);
    }
}

/* The same in a row. */
static inline void lly_put_number(uint8_t *blob, const lly_places *places, uint64_t row, int64_t number)
{
    lly_put_number_at(blob, places, lly_spot(places, row), number);
}

/* A leaf whose numbers are read where they lie. */
typedef struct lly_column {
    const uint8_t *blob;
    lly_places places;
} lly_column;

/* That of a leaf; it answers as lly_place does. */
static inline int32_t lly_column_of(lly_view *view, size_t leaf, lly_column *column, lly_fault *fault)
{
    size_t length;
    const int32_t answer = lly_place(view, leaf, &column->places, fault);

    return answer == LLY_DONE ? lly_blob_at(view, column->places.blob, &column->blob, &length) : answer;
}

#endif
