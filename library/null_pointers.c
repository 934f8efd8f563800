/* The names of llama_layout.h, over the proved calls: what is tested here is only what a proof has to take as given, that pointers are not NULL and that
 * the two handles of a copy are apart. tools/library gives each proved call the prefix `proved_`, and hides it behind the one here.
 */
#include "llama_layout.h"

/* A proved call has the type of its name in the header. */
#define PROVED(call) extern __typeof__(lly_##call) proved_lly_##call

PROVED(version);
PROVED(new);
PROVED(load);
PROVED(open);
PROVED(drop);
PROVED(rows);
PROVED(leaves);
PROVED(blobs);
PROVED(row);
PROVED(leaf);
PROVED(extents);
PROVED(path);
PROVED(type);
PROVED(counts);
PROVED(get);
PROVED(get_u64);
PROVED(set);
PROVED(set_u64);
PROVED(get_run);
PROVED(get_run_u64);
PROVED(set_run);
PROVED(set_run_u64);
PROVED(get_run_as);
PROVED(set_run_as);
PROVED(copy);
PROVED(relayout);
PROVED(kernel);
PROVED(do);
PROVED(tell);
PROVED(print);
PROVED(save);
PROVED(blob);
PROVED(record);
PROVED(layout);
PROVED(lend);
PROVED(return);
PROVED(place);
PROVED(blob_at);
PROVED(message);

/* A proved call has a length for each array, and its name here one for both. */
extern int32_t proved_lly_gather(lly_view *, const uint64_t *, size_t, size_t, int64_t *, size_t);
extern int32_t proved_lly_gather_u64(lly_view *, const uint64_t *, size_t, size_t, uint64_t *, size_t);
extern int32_t proved_lly_scatter(lly_view *, const uint64_t *, size_t, size_t, const int64_t *, size_t, lly_fault *);
extern int32_t proved_lly_scatter_u64(lly_view *, const uint64_t *, size_t, size_t, const uint64_t *, size_t, lly_fault *);
extern int32_t proved_lly_scatter_add(lly_view *, const uint64_t *, size_t, size_t, const int64_t *, size_t, lly_fault *);
extern int32_t proved_lly_get_box(lly_view *, const uint64_t *, size_t, const uint64_t *, size_t, size_t, int64_t *, size_t);
extern int32_t proved_lly_get_box_u64(lly_view *, const uint64_t *, size_t, const uint64_t *, size_t, size_t, uint64_t *, size_t);
extern int32_t proved_lly_set_box(lly_view *, const uint64_t *, size_t, const uint64_t *, size_t, size_t, const int64_t *, size_t, lly_fault *);
extern int32_t proved_lly_set_box_u64(lly_view *, const uint64_t *, size_t, const uint64_t *, size_t, size_t, const uint64_t *, size_t, lly_fault *);

/* An array of length 0 may be NULL; the proved calls want a place all the same, which they do not touch. */
static uint64_t nothing[1];

#define IS_ARRAY(at, len) ((at) != NULL || (len) == 0)
#define ARRAY(at) ((at) != NULL ? (at) : (void *)nothing)

int32_t lly_version(void) { return proved_lly_version(); }

int32_t lly_new(lly_view *out, const uint8_t *first, size_t first_len, const uint8_t *second, size_t second_len, lly_fault *fault) {
    if (!out || !fault || !IS_ARRAY(first, first_len) || !IS_ARRAY(second, second_len)) {
        return LLY_NULL;
    }
    return proved_lly_new(out, ARRAY(first), first_len, ARRAY(second), second_len, fault);
}

int32_t lly_load(lly_view *out, const uint8_t *first, size_t first_len, const uint8_t *second, size_t second_len, const uint8_t *csv,
                   size_t csv_len, lly_fault *fault) {
    if (!out || !fault || !IS_ARRAY(first, first_len) || !IS_ARRAY(second, second_len) || !IS_ARRAY(csv, csv_len)) {
        return LLY_NULL;
    }
    return proved_lly_load(out, ARRAY(first), first_len, ARRAY(second), second_len, ARRAY(csv), csv_len, fault);
}

int32_t lly_open(lly_view *out, const uint8_t *bytes, size_t bytes_len, lly_fault *fault) {
    return out && fault && IS_ARRAY(bytes, bytes_len) ? proved_lly_open(out, ARRAY(bytes), bytes_len, fault) : LLY_NULL;
}

void lly_drop(lly_view *view) {
    if (view) {
        proved_lly_drop(view);
    }
}

int32_t lly_rows(lly_view *view, uint64_t *rows) { return view && rows ? proved_lly_rows(view, rows) : LLY_NULL; }

int32_t lly_leaves(lly_view *view, size_t *leaves) { return view && leaves ? proved_lly_leaves(view, leaves) : LLY_NULL; }

int32_t lly_blobs(lly_view *view, size_t *blobs) { return view && blobs ? proved_lly_blobs(view, blobs) : LLY_NULL; }

int32_t lly_row(lly_view *view, const uint64_t *index, size_t rank, uint64_t *row) {
    return view && row && IS_ARRAY(index, rank) ? proved_lly_row(view, ARRAY(index), rank, row) : LLY_NULL;
}

int32_t lly_leaf(lly_view *view, const uint8_t *path, size_t path_len, size_t *leaf) {
    return view && leaf && IS_ARRAY(path, path_len) ? proved_lly_leaf(view, ARRAY(path), path_len, leaf) : LLY_NULL;
}

int32_t lly_extents(lly_view *view, uint64_t *extents, size_t rank, size_t *needed) {
    return view && needed && IS_ARRAY(extents, rank) ? proved_lly_extents(view, ARRAY(extents), rank, needed) : LLY_NULL;
}

int32_t lly_path(lly_view *view, size_t leaf, uint8_t *path, size_t path_len, size_t *needed) {
    return view && needed && IS_ARRAY(path, path_len) ? proved_lly_path(view, leaf, ARRAY(path), path_len, needed) : LLY_NULL;
}

int32_t lly_type(lly_view *view, size_t leaf, uint32_t *bits, bool *sign) {
    bool given = false; /* a proved call takes a bool that is 0 or 1, as one that is not set yet may not be */
    int32_t answer = view && bits && sign ? proved_lly_type(view, leaf, bits, &given) : LLY_NULL;
    if (answer == LLY_DONE) {
        *sign = given;
    }
    return answer;
}

int32_t lly_counts(lly_view *view, size_t leaf, uint64_t *reads, uint64_t *writes) {
    return view && reads && writes ? proved_lly_counts(view, leaf, reads, writes) : LLY_NULL;
}

int32_t lly_get(lly_view *view, uint64_t row, size_t leaf, int64_t *value) {
    return view && value ? proved_lly_get(view, row, leaf, value) : LLY_NULL;
}

int32_t lly_get_u64(lly_view *view, uint64_t row, size_t leaf, uint64_t *value) {
    return view && value ? proved_lly_get_u64(view, row, leaf, value) : LLY_NULL;
}

int32_t lly_set(lly_view *view, uint64_t row, size_t leaf, int64_t value) {
    return view ? proved_lly_set(view, row, leaf, value) : LLY_NULL;
}

int32_t lly_set_u64(lly_view *view, uint64_t row, size_t leaf, uint64_t value) {
    return view ? proved_lly_set_u64(view, row, leaf, value) : LLY_NULL;
}

int32_t lly_get_run(lly_view *view, uint64_t first, size_t leaf, int64_t *values, size_t count) {
    return view && IS_ARRAY(values, count) ? proved_lly_get_run(view, first, leaf, ARRAY(values), count) : LLY_NULL;
}

int32_t lly_get_run_u64(lly_view *view, uint64_t first, size_t leaf, uint64_t *values, size_t count) {
    return view && IS_ARRAY(values, count) ? proved_lly_get_run_u64(view, first, leaf, ARRAY(values), count) : LLY_NULL;
}

int32_t lly_set_run(lly_view *view, uint64_t first, size_t leaf, const int64_t *values, size_t count, lly_fault *fault) {
    return view && fault && IS_ARRAY(values, count) ? proved_lly_set_run(view, first, leaf, ARRAY(values), count, fault) : LLY_NULL;
}

int32_t lly_set_run_u64(lly_view *view, uint64_t first, size_t leaf, const uint64_t *values, size_t count, lly_fault *fault) {
    return view && fault && IS_ARRAY(values, count) ? proved_lly_set_run_u64(view, first, leaf, ARRAY(values), count, fault) : LLY_NULL;
}

int32_t lly_get_run_as(lly_view *view, uint64_t first, size_t leaf, uint32_t bits, bool sign, uint8_t *bytes, size_t bytes_len) {
    return view && IS_ARRAY(bytes, bytes_len) ? proved_lly_get_run_as(view, first, leaf, bits, sign, ARRAY(bytes), bytes_len) : LLY_NULL;
}

int32_t lly_set_run_as(lly_view *view, uint64_t first, size_t leaf, uint32_t bits, bool sign, const uint8_t *bytes, size_t bytes_len, lly_fault *fault) {
    return view && fault && IS_ARRAY(bytes, bytes_len) ? proved_lly_set_run_as(view, first, leaf, bits, sign, ARRAY(bytes), bytes_len, fault) : LLY_NULL;
}

int32_t lly_gather(lly_view *view, const uint64_t *rows, size_t count, size_t leaf, int64_t *values) {
    return view && IS_ARRAY(rows, count) && IS_ARRAY(values, count) ? proved_lly_gather(view, ARRAY(rows), count, leaf, ARRAY(values), count) : LLY_NULL;
}

int32_t lly_gather_u64(lly_view *view, const uint64_t *rows, size_t count, size_t leaf, uint64_t *values) {
    return view && IS_ARRAY(rows, count) && IS_ARRAY(values, count) ? proved_lly_gather_u64(view, ARRAY(rows), count, leaf, ARRAY(values), count) : LLY_NULL;
}

int32_t lly_scatter(lly_view *view, const uint64_t *rows, size_t count, size_t leaf, const int64_t *values, lly_fault *fault) {
    return view && fault && IS_ARRAY(rows, count) && IS_ARRAY(values, count) ? proved_lly_scatter(view, ARRAY(rows), count, leaf, ARRAY(values), count, fault)
                                                                             : LLY_NULL;
}

int32_t lly_scatter_u64(lly_view *view, const uint64_t *rows, size_t count, size_t leaf, const uint64_t *values, lly_fault *fault) {
    return view && fault && IS_ARRAY(rows, count) && IS_ARRAY(values, count)
               ? proved_lly_scatter_u64(view, ARRAY(rows), count, leaf, ARRAY(values), count, fault)
               : LLY_NULL;
}

int32_t lly_scatter_add(lly_view *view, const uint64_t *rows, size_t count, size_t leaf, const int64_t *values, lly_fault *fault) {
    return view && fault && IS_ARRAY(rows, count) && IS_ARRAY(values, count)
               ? proved_lly_scatter_add(view, ARRAY(rows), count, leaf, ARRAY(values), count, fault)
               : LLY_NULL;
}

#define ARE_ARRAYS(low, high, rank, values, count) (IS_ARRAY(low, rank) && IS_ARRAY(high, rank) && IS_ARRAY(values, count))

int32_t lly_get_box(lly_view *view, const uint64_t *low, const uint64_t *high, size_t rank, size_t leaf, int64_t *values, size_t count) {
    return view && ARE_ARRAYS(low, high, rank, values, count) ? proved_lly_get_box(view, ARRAY(low), rank, ARRAY(high), rank, leaf, ARRAY(values), count)
                                                              : LLY_NULL;
}

int32_t lly_get_box_u64(lly_view *view, const uint64_t *low, const uint64_t *high, size_t rank, size_t leaf, uint64_t *values, size_t count) {
    return view && ARE_ARRAYS(low, high, rank, values, count) ? proved_lly_get_box_u64(view, ARRAY(low), rank, ARRAY(high), rank, leaf, ARRAY(values), count)
                                                              : LLY_NULL;
}

int32_t lly_set_box(lly_view *view, const uint64_t *low, const uint64_t *high, size_t rank, size_t leaf, const int64_t *values, size_t count,
                    lly_fault *fault) {
    return view && fault && ARE_ARRAYS(low, high, rank, values, count)
               ? proved_lly_set_box(view, ARRAY(low), rank, ARRAY(high), rank, leaf, ARRAY(values), count, fault)
               : LLY_NULL;
}

int32_t lly_set_box_u64(lly_view *view, const uint64_t *low, const uint64_t *high, size_t rank, size_t leaf, const uint64_t *values, size_t count,
                        lly_fault *fault) {
    return view && fault && ARE_ARRAYS(low, high, rank, values, count)
               ? proved_lly_set_box_u64(view, ARRAY(low), rank, ARRAY(high), rank, leaf, ARRAY(values), count, fault)
               : LLY_NULL;
}

int32_t lly_copy(lly_view *source, lly_view *target, lly_fault *fault) {
    if (!source || !target || !fault) {
        return LLY_NULL;
    }
    return source == target ? LLY_SAME : proved_lly_copy(source, target, fault);
}

int32_t lly_relayout(lly_view *view, const uint8_t *line, size_t line_len, lly_fault *fault) {
    return view && fault && IS_ARRAY(line, line_len) ? proved_lly_relayout(view, ARRAY(line), line_len, fault) : LLY_NULL;
}

int32_t lly_kernel(lly_view *view, const uint8_t *line, size_t line_len, int64_t *value, lly_fault *fault) {
    return view && value && fault && IS_ARRAY(line, line_len) ? proved_lly_kernel(view, ARRAY(line), line_len, value, fault) : LLY_NULL;
}

int32_t lly_do(lly_view *view, const uint8_t *line, size_t line_len, int64_t *number, lly_fault *fault) {
    return view && number && fault && IS_ARRAY(line, line_len) ? proved_lly_do(view, ARRAY(line), line_len, number, fault) : LLY_NULL;
}

int32_t lly_tell(lly_view *view, const uint8_t *line, size_t line_len, uint8_t *text, size_t text_len, size_t *needed, lly_fault *fault) {
    if (!view || !needed || !fault || !IS_ARRAY(line, line_len) || !IS_ARRAY(text, text_len)) {
        return LLY_NULL;
    }
    return proved_lly_tell(view, ARRAY(line), line_len, ARRAY(text), text_len, needed, fault);
}

int32_t lly_print(lly_view *view, uint8_t *text, size_t text_len, size_t *needed) {
    return view && needed && IS_ARRAY(text, text_len) ? proved_lly_print(view, ARRAY(text), text_len, needed) : LLY_NULL;
}

int32_t lly_save(lly_view *view, uint8_t *bytes, size_t bytes_len, size_t *needed) {
    return view && needed && IS_ARRAY(bytes, bytes_len) ? proved_lly_save(view, ARRAY(bytes), bytes_len, needed) : LLY_NULL;
}

int32_t lly_blob(lly_view *view, size_t blob, uint8_t *bytes, size_t bytes_len, size_t *needed) {
    return view && needed && IS_ARRAY(bytes, bytes_len) ? proved_lly_blob(view, blob, ARRAY(bytes), bytes_len, needed) : LLY_NULL;
}

int32_t lly_record(lly_view *view, uint8_t *text, size_t text_len, size_t *needed) {
    return view && needed && IS_ARRAY(text, text_len) ? proved_lly_record(view, ARRAY(text), text_len, needed) : LLY_NULL;
}

int32_t lly_layout(lly_view *view, uint8_t *text, size_t text_len, size_t *needed) {
    return view && needed && IS_ARRAY(text, text_len) ? proved_lly_layout(view, ARRAY(text), text_len, needed) : LLY_NULL;
}

int32_t lly_lend(lly_view *view, uint8_t *bytes, size_t bytes_len, size_t *needed) {
    return view && needed && IS_ARRAY(bytes, bytes_len) ? proved_lly_lend(view, ARRAY(bytes), bytes_len, needed) : LLY_NULL;
}

int32_t lly_return(lly_view *view, const uint8_t *bytes, size_t bytes_len, lly_fault *fault) {
    return view && fault && IS_ARRAY(bytes, bytes_len) ? proved_lly_return(view, ARRAY(bytes), bytes_len, fault) : LLY_NULL;
}

int32_t lly_message(int32_t answer, const lly_fault *fault, uint8_t *text, size_t text_len, size_t *needed) {
    return fault && needed && IS_ARRAY(text, text_len) ? proved_lly_message(answer, fault, ARRAY(text), text_len, needed) : LLY_NULL;
}

int32_t lly_place(lly_view *view, size_t leaf, lly_places *places, lly_fault *fault) {
    return view && places && fault ? proved_lly_place(view, leaf, places, fault) : LLY_NULL;
}

int32_t lly_blob_at(lly_view *view, size_t blob, const uint8_t **bytes, size_t *length) {
    return view && bytes && length ? proved_lly_blob_at(view, blob, bytes, length) : LLY_NULL;
}
