/* llama_layout_places.h beside what leaf_places/specs/Places.antt says of places, by random ones: where the number in a row begins, and what its bits say, one by
 * one, and that a number is written there. tools/library_examples runs it; it says how many differ, and ends with 0 where none does. The blobs are as long as the places say, so that valgrind sees
 * a load that passes them.
 */
#include <inttypes.h>
#include <stdio.h>
#include <stdlib.h>

#include "llama_layout_places.h"

enum { TIMES = 100000, LONGEST = 64 };

static uint64_t below(uint64_t end) { return ((uint64_t)rand() << 15 ^ (uint64_t)rand()) % end; }

/* The number whose binary digits are those of two in turn. */
static uint64_t interleaved(uint64_t line, uint64_t column)
{
    uint64_t number = 0;
    int digit;

    for (digit = 0; digit < 20; digit++) {
        number |= (column >> digit & 1) << 2 * digit | (line >> digit & 1) << (2 * digit + 1);
    }
    return number;
}

static int is_other_spot(void)
{
    const lly_places places = {0, 0, below(100), 1 + below(50), below(40), below(900), 8, false, false, false, below(2) == 1};
    const uint64_t row = below(3000), group = row / places.lanes, rest = row % places.lanes;
    const uint64_t due = places.in_digits ? interleaved(group, rest) * places.block : group * places.block + rest * places.lane;

    return lly_spot(&places, row) != places.base + due;
}

static int is_other_number(void)
{
    static const uint32_t widths[] = {8, 16, 32, 64};
    lly_places places = {0, 1 + below(LONGEST), 0, 1, 0, 0, 0, below(2) == 1, below(2) == 1, below(2) == 1, false};
    uint8_t *const blob = malloc(places.bytes);
    uint64_t number = 0, spot, first, bits, k;
    int64_t read;
    uint8_t before[LONGEST + 1];
    int is_other;

    places.width = places.in_bits ? 1 + (uint32_t)below(57) : widths[below(4)];
    places.is_turned = places.is_turned && !places.in_bits && places.width > 8;
    bits = 8 * places.bytes;
    if (!blob || places.width > bits) {
        free(blob);
        return !blob;
    }
    for (k = 0; k < places.bytes; k++) {
        blob[k] = (uint8_t)below(256);
    }
    spot = places.in_bits ? below(bits - places.width + 1) : below((bits - places.width) / 8 + 1);
    first = places.in_bits ? spot : 8 * spot;
    for (k = 0; k < places.width; k++) {
        const uint64_t at = first + (places.is_turned ? 8 * (places.width / 8 - 1 - k / 8) + k % 8 : k);
        number |= (uint64_t)(blob[at / 8] >> at % 8 & 1) << k;
    }
    if (places.is_signed && places.width < 64 && number >> (places.width - 1)) {
        number -= UINT64_C(1) << places.width;
    }
    read = lly_number_at(blob, &places, spot);
    is_other = (uint64_t)read != number;
    /* Another number is written and read back, and the bytes are as they were once the first one is written. */
    memcpy(before, blob, places.bytes);
    lly_put_number_at(blob, &places, spot, ~read);
    is_other |= lly_number_at(blob, &places, spot) != (places.is_signed || places.width == 64 ? ~read : (int64_t)(~number & ~(~UINT64_C(0) << places.width)));
    lly_put_number_at(blob, &places, spot, read);
    is_other |= memcmp(before, blob, places.bytes);
    free(blob);
    return is_other != 0;
}

int main(void)
{
    int differ = 0, time;

    for (time = 0; time < TIMES; time++) {
        differ += is_other_spot() + is_other_number();
    }
    if (differ) {
        printf("%d of %d differ\n", differ, 2 * TIMES);
    }
    return differ != 0;
}
