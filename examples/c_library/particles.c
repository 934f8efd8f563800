/* Particles under two layouts: the same program makes each view, moves the particles, and gives the same sums. With a number as its argument it
 * also takes that many rounds and says how long a value took. */
#include <inttypes.h>
#include <stdio.h>
#include <stdlib.h>
#include <string.h>
#include <time.h>

#include "llama_layout.h"

enum { ROWS = 4096, X = 0, MASS = 1, ALIVE = 2 };

static const char RECORD[] = "record Particle { x: i32, mass: u16, alive: bool }";

static const char *const VIEWS[] = {
    "view P : Particle [4096] as aos(packed, row)",
    "view P : Particle [4096] as soa(multi, row)",
};

static void must(int32_t answer, const char *call) {
    if (answer != LLY_DONE) {
        fprintf(stderr, "%s answers %" PRId32 "\n", call, answer);
        exit(1);
    }
}

static void make(lly_view *view, const char *line) {
    lly_fault fault = LLY_NO_FAULT;
    must(lly_new(view, (const uint8_t *)RECORD, strlen(RECORD), (const uint8_t *)line, strlen(line), &fault), "lly_new");
}

static int64_t sum_of(lly_view *view, size_t leaf, int64_t *values) {
    int64_t sum = 0;
    size_t row;
    must(lly_get_run(view, 0, leaf, values, ROWS), "lly_get_run");
    for (row = 0; row < ROWS; row++) {
        sum += values[row];
    }
    return sum;
}

static void time_rounds(lly_view *view, int rounds, int64_t *values) {
    const clock_t begin = clock();
    int64_t sum = 0;
    int round;
    for (round = 0; round < rounds; round++) {
        sum += sum_of(view, X, values);
    }
    fprintf(stderr, "%.2f ns a value, sum %" PRId64 "\n", 1e9 * (double)(clock() - begin) / CLOCKS_PER_SEC / rounds / ROWS, sum);
}

/* The table of a view in another layout, by a copy; and a row that is found by its index. */
static void copy_back(lly_view *view, int64_t *values) {
    lly_view other = LLY_NONE;
    const uint64_t index[] = {1000}, outside[] = {ROWS};
    uint64_t row = 0, rows = 0;
    size_t leaves = 0;
    lly_fault fault = LLY_NO_FAULT;
    make(&other, VIEWS[0]);
    must(lly_copy(view, &other, &fault), "lly_copy");
    must(lly_row(&other, index, 1, &row), "lly_row");
    must(lly_rows(&other, &rows), "lly_rows");
    must(lly_leaves(&other, &leaves), "lly_leaves");
    printf("%" PRIu64 " %" PRIu64 " %d %" PRId64 " %d\n", row, rows, (int)leaves, sum_of(&other, X, values), (int)lly_row(&other, outside, 1, &row));
    lly_drop(&other);
}

int main(int argc, char **argv) {
    static int64_t values[ROWS];
    lly_view view = LLY_NONE;
    size_t form;
    int64_t row;
    if (lly_version() / 10000 != LLY_VERSION / 10000) {
        fprintf(stderr, "the library has the version %" PRId32 "\n", lly_version());
        return 1;
    }
    for (form = 0; form < sizeof VIEWS / sizeof VIEWS[0]; form++) {
        int64_t value = 0;
        lly_fault fault = LLY_NO_FAULT;
        make(&view, VIEWS[form]);
        for (row = 0; row < ROWS; row++) {
            values[row] = 3 * row - 6000;
            must(lly_set(&view, (uint64_t)row, MASS, row), "lly_set");
            must(lly_set(&view, (uint64_t)row, ALIVE, row % 2), "lly_set");
        }
        must(lly_set_run(&view, 0, X, values, ROWS, &fault), "lly_set_run");
        must(lly_get(&view, 1000, X, &value), "lly_get");
        printf("%" PRId64 " %" PRId64 " %" PRId64 " %" PRId64 "\n", value, sum_of(&view, X, values), sum_of(&view, MASS, values), sum_of(&view, ALIVE, values));
        printf("%d %d %d\n", (int)lly_set(&view, 0, MASS, 65536), (int)lly_get(&view, ROWS, X, &value), (int)lly_get(&view, 0, 3, &value));
        if (argc > 1) {
            time_rounds(&view, atoi(argv[1]), values);
        }
    }
    copy_back(&view, values);
    lly_drop(&view);
    printf("%d\n", (int)lly_get(&view, 0, X, &row));
    return 0;
}
