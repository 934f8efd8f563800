/* A table that is loaded from a dataset, worked on by a kernel, laid out anew, and shown: what the script tables.llama does, without a script. Its
 * argument is the dataset.
 */
#include <inttypes.h>
#include <stdio.h>
#include <stdlib.h>
#include <string.h>

#include "llama_layout.h"

#define TEXT(text) (const uint8_t *)(text), strlen(text)

static void must(int32_t answer, const char *call, const lly_fault *fault) {
    if (answer != LLY_DONE) {
        fprintf(stderr, "%s answers %" PRId32 ": cause %" PRId32 ", row %" PRIu64 ", leaf %zu, column %" PRIu64 "\n", call, answer, fault->cause, fault->row,
                fault->leaf, fault->column);
        exit(1);
    }
}

/* A whole file, which is short. */
static size_t read_file(const char *name, uint8_t *bytes, size_t most) {
    FILE *file = fopen(name, "rb");
    const size_t count = file ? fread(bytes, 1, most, file) : 0;
    if (file) {
        fclose(file);
    }
    return count;
}

int main(int argc, char **argv) {
    static const char record[] = "record Star { mag: i16, count: u32 }";
    static const char load[] = "load Stars : Star [?] as aos(packed, row) from \"tables.csv\"";
    static uint8_t csv[65536];
    const size_t csv_len = read_file(argc > 1 ? argv[1] : "tables.csv", csv, sizeof csv);
    lly_view stars = LLY_NONE, again = LLY_NONE;
    lly_fault fault = LLY_NO_FAULT;
    uint8_t *bytes;
    size_t needed = 0;
    int64_t sum = 0;
    must(lly_load(&stars, TEXT(record), TEXT(load), csv, csv_len, &fault), "lly_load", &fault);
    must(lly_kernel(&stars, TEXT("kernel Stars axpy(3, mag, count) lanes 8"), &sum, &fault), "lly_kernel", &fault);
    must(lly_relayout(&stars, TEXT("relayout Stars as soa(multi, row)"), &fault), "lly_relayout", &fault);
    must(lly_kernel(&stars, TEXT("kernel Stars sum(count) lanes 16"), &sum, &fault), "lly_kernel", &fault);
    printf("%" PRId64 "\n", sum);

    /* saved, opened again, and shown: each time the length is asked for first */
    lly_save(&stars, NULL, 0, &needed);
    bytes = malloc(needed);
    must(lly_save(&stars, bytes, needed, &needed), "lly_save", &fault);
    must(lly_open(&again, bytes, needed, &fault), "lly_open", &fault);
    free(bytes);
    lly_print(&again, NULL, 0, &needed);
    bytes = malloc(needed);
    must(lly_print(&again, bytes, needed, &needed), "lly_print", &fault);
    fwrite(bytes, 1, needed, stdout);
    free(bytes);
    lly_drop(&stars);
    lly_drop(&again);
    return 0;
}
