/* Does the calls of llama_layout.h that it reads from its input, and writes what each of them answers and leaves in what the caller handed it. tools/throw_calls throws the calls, and
 * compares. It is linked with --wrap for the requests for memory, so that it can count and refuse those of the library.
 *
 * Of each call it looks at what no script can tell, and says what differs: on a refusal what was handed stays as it was, but for the fault; nothing is written behind what *needed says; the calls
 * that take no memory make no request; and where a request is refused, the call answers LLY_NO_MEMORY and no handle and no blob changes, or it is done all the same. It ends with 0 where nothing
 * differs.
 */
#include <inttypes.h>
#include <stdio.h>
#include <stdlib.h>
#include <string.h>

#include "llama_layout.h"
#include "llama_layout_places.h"

enum { HANDLES = 8, TEXTS = 3, UNTOUCHED = 0x5A };

enum op {
    END, VERSION, NEW, LOAD, OPEN, DROP, ROWS, LEAVES, BLOBS, ROW, LEAF, EXTENTS, PATH, TYPE, COUNTS, GET, GET_U64, SET, SET_U64, GET_RUN, GET_RUN_U64, SET_RUN, SET_RUN_U64, GATHER, GATHER_U64, SCATTER,
    SCATTER_U64, SCATTER_ADD, COPY, RELAYOUT, KERNEL, DO, TELL, PRINT, SAVE, BLOB, MESSAGE, PLACE, BLOB_AT, GET_BOX, GET_BOX_U64, SET_BOX, SET_BOX_U64, GET_RUN_AS, SET_RUN_AS, RECORD, LAYOUT, LEND, RETURN
};

/* Of a kind of call: whether it takes memory, whether it reports a fault, and of how many bytes each element is that it gives, of which it says how many it needs, or has as many as it is asked for. */
static const struct kind {
    unsigned takes_memory, reports, needs, element;
} kinds[] = {
    [NEW] = {1, 1, 0, 0}, [LOAD] = {1, 1, 0, 0}, [OPEN] = {1, 1, 0, 0}, [EXTENTS] = {0, 0, 1, 8}, [PATH] = {0, 0, 1, 1}, [TYPE] = {0, 0, 0, 5}, [COUNTS] = {0, 0, 0, 16}, [GET_RUN] = {0, 0, 0, 8},
    [GET_RUN_U64] = {0, 0, 0, 8}, [SET_RUN] = {0, 1, 0, 0}, [SET_RUN_U64] = {0, 1, 0, 0}, [GATHER] = {0, 0, 0, 8}, [GATHER_U64] = {0, 0, 0, 8}, [SCATTER] = {0, 1, 0, 0}, [SCATTER_U64] = {0, 1, 0, 0},
    [SCATTER_ADD] = {0, 1, 0, 0}, [COPY] = {0, 1, 0, 0}, [RELAYOUT] = {1, 1, 0, 0}, [KERNEL] = {1, 1, 0, 0}, [DO] = {1, 1, 0, 0}, [TELL] = {1, 1, 1, 1}, [PRINT] = {1, 0, 1, 1}, [SAVE] = {1, 0, 1, 1},
    [BLOB] = {0, 0, 1, 1}, [MESSAGE] = {1, 0, 1, 1}, [PLACE] = {0, 1, 0, sizeof(lly_places)}, [BLOB_AT] = {0, 0, 1, 1},
    [GET_BOX] = {0, 0, 0, 8}, [GET_BOX_U64] = {0, 0, 0, 8}, [SET_BOX] = {0, 1, 0, 0}, [SET_BOX_U64] = {0, 1, 0, 0}, [GET_RUN_AS] = {0, 0, 0, 1}, [SET_RUN_AS] = {0, 1, 0, 0}, [RECORD] = {1, 0, 1, 1},
    [LAYOUT] = {1, 0, 1, 1}, [LEND] = {0, 0, 1, 1}, [RETURN] = {1, 1, 0, 0}
};

/* How requests are refused while a call is made: none, or each of them in turn, by itself or with all later ones. */
enum refused { NONE, ONCE, ON };

/* A call as it comes, before its words and its texts: its number, how requests are refused, which of its pointers are NULL, its handle, numbers, how many words it has, and the lengths of its texts. */
struct head {
    uint64_t op, refused, nulls, handle, a, b, c, words, lengths[TEXTS];
};

struct call {
    struct head head;
    uint64_t *words;
    uint8_t *texts[TEXTS];
};

/* What comes of it, before the bytes that it gives. */
struct answer {
    int64_t answer, cause;
    uint64_t row, leaf, column, value, size;
};

static lly_view views[HANDLES];
/* What the call before answered and reported. */
static struct answer last;
static uint64_t sequence, number, all_refused, all_in_turn;
static int differs = 0;

static void say(const struct call *call, const char *what) {
    fprintf(stderr, "thrown_calls: sequence %" PRIu64 ", call %" PRIu64 ", of number %" PRIu64 ": %s\n", sequence, number, call->head.op, what);
    differs = 1;
}

/* ---- Memory. */

extern void *__real_malloc(size_t size);
extern void *__real_realloc(void *at, size_t size);
extern void __real_free(void *at);
void *__wrap_malloc(size_t size);
void *__wrap_realloc(void *at, size_t size);
void __wrap_free(void *at);

static long requests, refused_from, failed, live;
/* How requests are refused now, and how they are to be while the next call is made. */
static enum refused how, how_next;

static int is_refused(void) {
    int due;
    requests++;
    due = how == NONE ? 0 : how == ON ? requests >= refused_from : requests == refused_from;
    failed += due;
    return due;
}

void *__wrap_malloc(size_t size) {
    void *at = is_refused() ? NULL : __real_malloc(size);
    live += at != NULL;
    return at;
}

void *__wrap_realloc(void *at, size_t size) {
    void *new = is_refused() ? NULL : __real_realloc(at, size);
    live += at == NULL && new != NULL;
    return new;
}

void __wrap_free(void *at) {
    live -= at != NULL;
    __real_free(at);
}

/* Memory of the caller's own, as long as it says. */
static void *room(size_t size) {
    void *at = __real_malloc(size);
    if (!at && size) {
        perror("thrown_calls");
        exit(2);
    }
    return at;
}

/* ---- Calls. */

/* A pointer, or NULL where the call is to have that. */
#define P(which, at) (call->head.nulls >> (which) & 1 ? NULL : (at))
#define TEXT(pointer, text) P(pointer, call->texts[text]), call->head.lengths[text]

/* The words of the call before, or of what is handed. */
static int32_t message(const struct call *call, uint8_t *bytes, size_t size, size_t *needed) {
    const struct head *head = &call->head;
    lly_fault fault = LLY_NO_FAULT;
    if (head->words == 3) {
        fault.cause = (int32_t)head->b;
        fault.row = call->words[0];
        fault.leaf = call->words[1];
        fault.column = call->words[2];
    } else if (last.cause != -7) {
        fault.cause = (int32_t)last.cause;
        fault.row = last.row;
        fault.leaf = last.leaf;
        fault.column = last.column;
    }
    return lly_message((int32_t)(head->words == 3 ? (int64_t)head->a : last.answer), P(0, &fault), P(1, bytes), size, P(2, needed));
}

/* The bytes of a blob where they lie. */
static int32_t blob_at(const struct call *call, uint8_t *bytes, size_t size, size_t *length) {
    const uint8_t *const none = (const uint8_t *)&views, *at = none;
    const int32_t answer = lly_blob_at(P(0, &views[call->head.handle]), call->head.a, P(1, &at), P(2, length));
    if (answer == LLY_DONE ? at == none || (*length == 0) != (at == NULL) : at != none) {
        say(call, "the address of a blob");
    } else if (answer == LLY_DONE && *length && *length <= size) {
        memcpy(bytes, at, *length);
    }
    return answer;
}

static int32_t put(const struct call *call, uint8_t *bytes, size_t size, size_t *needed, lly_fault *fault) {
    const struct head *head = &call->head;
    lly_view *view = &views[head->handle];
    switch (head->op) {
    case EXTENTS: return lly_extents(P(0, view), P(1, (uint64_t *)(void *)bytes), size / sizeof(uint64_t), P(2, needed));
    case PATH: return lly_path(P(0, view), head->b, P(1, bytes), size, P(2, needed));
    case TELL: return lly_tell(P(0, view), TEXT(1, 0), P(2, bytes), size, P(3, needed), P(4, fault));
    case PRINT: return lly_print(P(0, view), P(1, bytes), size, P(2, needed));
    case SAVE: return lly_save(P(0, view), P(1, bytes), size, P(2, needed));
    case BLOB: return lly_blob(P(0, view), head->a, P(1, bytes), size, P(2, needed));
    case RECORD: return lly_record(P(0, view), P(1, bytes), size, P(2, needed));
    case LAYOUT: return lly_layout(P(0, view), P(1, bytes), size, P(2, needed));
    case LEND: return lly_lend(P(0, view), P(1, bytes), size, P(2, needed));
    case MESSAGE: return message(call, bytes, size, needed);
    default: return blob_at(call, bytes, size, needed);
    }
}

/* The bytes of all blobs come back as they were lent, or with other bits in one of them, and as many as they were or one more or less. */
static int32_t returned(const struct call *call, lly_fault *fault) {
    const struct head *head = &call->head;
    size_t size = 0, length;
    uint8_t *bytes;
    int32_t answer;
    lly_lend(&views[head->handle], NULL, 0, &size);
    bytes = room(size + 1);
    bytes[size] = 0;
    lly_lend(&views[head->handle], bytes, size, &size);
    length = size || (int64_t)head->c > 0 ? size + head->c : 0;
    if (size) {
        bytes[head->a % size] ^= (uint8_t)head->b;
    }
    answer = lly_return(P(0, &views[head->handle]), P(1, bytes), length, P(2, fault));
    __real_free(bytes);
    return answer;
}

/* The call, over so many bytes that it may write. */
static int32_t made(const struct call *call, uint8_t *bytes, size_t size, uint64_t *value, lly_fault *fault) {
    const struct head *head = &call->head;
    lly_view *view = &views[head->handle];
    int64_t *numbers = (int64_t *)call->words;
    size_t count = head->words, half = count / 2, rank = head->a, place = (size_t)*value;
    int64_t given = (int64_t)*value;
    int32_t answer;
    switch (head->op) {
    case VERSION: return lly_version();
    case NEW: return lly_new(P(0, view), TEXT(1, 0), TEXT(2, 1), P(3, fault));
    case LOAD: return lly_load(P(0, view), TEXT(1, 0), TEXT(2, 1), TEXT(3, 2), P(4, fault));
    case OPEN: return lly_open(P(0, view), TEXT(1, 0), P(2, fault));
    case DROP: lly_drop(P(0, view)); return LLY_DONE;
    case ROWS: return lly_rows(P(0, view), P(1, value));
    case ROW: return lly_row(P(0, view), P(1, call->words), count, P(2, value));
    case LEAVES: answer = lly_leaves(P(0, view), P(1, &place)); break;
    case BLOBS: answer = lly_blobs(P(0, view), P(1, &place)); break;
    case LEAF: answer = lly_leaf(P(0, view), TEXT(1, 0), P(2, &place)); break;
    case TYPE: return lly_type(P(0, view), head->b, P(1, (uint32_t *)(void *)bytes), P(2, (bool *)(bytes + 4)));
    case COUNTS: return lly_counts(P(0, view), head->b, P(1, (uint64_t *)(void *)bytes), P(2, (uint64_t *)(void *)(bytes + 8)));
    case PLACE: return lly_place(P(0, view), head->b, P(1, (lly_places *)(void *)bytes), P(2, fault));
    case GATHER: return lly_gather(P(0, view), P(1, call->words), count, head->b, P(2, (int64_t *)(void *)bytes));
    case GATHER_U64: return lly_gather_u64(P(0, view), P(1, call->words), count, head->b, P(2, (uint64_t *)(void *)bytes));
    case SCATTER: return lly_scatter(P(0, view), P(1, call->words), half, head->b, P(2, numbers + half), P(3, fault));
    case SCATTER_U64: return lly_scatter_u64(P(0, view), P(1, call->words), half, head->b, P(2, call->words + half), P(3, fault));
    case SCATTER_ADD: return lly_scatter_add(P(0, view), P(1, call->words), half, head->b, P(2, numbers + half), P(3, fault));
    case GET: answer = lly_get(P(0, view), head->a, head->b, P(1, &given)); *value = (uint64_t)given; return answer;
    case GET_U64: return lly_get_u64(P(0, view), head->a, head->b, P(1, value));
    case SET: return lly_set(P(0, view), head->a, head->b, (int64_t)head->c);
    case SET_U64: return lly_set_u64(P(0, view), head->a, head->b, head->c);
    case GET_RUN: return lly_get_run(P(0, view), head->a, head->b, P(1, (int64_t *)(void *)bytes), head->c);
    case GET_RUN_U64: return lly_get_run_u64(P(0, view), head->a, head->b, P(1, (uint64_t *)(void *)bytes), head->c);
    case SET_RUN: return lly_set_run(P(0, view), head->a, head->b, P(1, numbers), count, P(2, fault));
    case SET_RUN_U64: return lly_set_run_u64(P(0, view), head->a, head->b, P(1, call->words), count, P(2, fault));
    case GET_BOX: return lly_get_box(P(0, view), P(1, call->words), P(2, call->words + rank), rank, head->b, P(3, (int64_t *)(void *)bytes), head->c);
    case GET_BOX_U64: return lly_get_box_u64(P(0, view), P(1, call->words), P(2, call->words + rank), rank, head->b, P(3, (uint64_t *)(void *)bytes), head->c);
    case SET_BOX: return lly_set_box(P(0, view), P(1, call->words), P(2, call->words + rank), rank, head->b, P(3, numbers + 2 * rank), count - 2 * rank, P(4, fault));
    case SET_BOX_U64: return lly_set_box_u64(P(0, view), P(1, call->words), P(2, call->words + rank), rank, head->b, P(3, call->words + 2 * rank), count - 2 * rank, P(4, fault));
    case GET_RUN_AS: return lly_get_run_as(P(0, view), head->a, head->b, (uint32_t)call->words[0], call->words[1] != 0, P(1, bytes), size);
    case SET_RUN_AS: return lly_set_run_as(P(0, view), head->a, head->b, (uint32_t)call->words[0], call->words[1] != 0, TEXT(1, 0), P(2, fault));
    case RETURN: return returned(call, fault);
    case COPY: return lly_copy(P(0, view), P(1, &views[head->a]), P(2, fault));
    case RELAYOUT: return lly_relayout(P(0, view), TEXT(1, 0), P(2, fault));
    case KERNEL: answer = lly_kernel(P(0, view), TEXT(1, 0), P(2, &given), P(3, fault)); *value = (uint64_t)given; return answer;
    case DO: answer = lly_do(P(0, view), TEXT(1, 0), P(2, &given), P(3, fault)); *value = (uint64_t)given; return answer;
    default: answer = put(call, bytes, size, &place, fault); break;
    }
    *value = place;
    return answer;
}

/* How many bytes the call is handed to be written: those of the elements that it is asked for, or what it needs, less or more by the number that is handed. */
static size_t size_for(const struct call *call) {
    const struct head *head = &call->head;
    const struct kind *kind = &kinds[head->op];
    size_t needed = 0, by;
    lly_fault fault;
    int32_t answer;
    if (!kind->needs) {
        switch (head->op) {
        case GATHER: case GATHER_U64: return kind->element * head->words;
        case GET_RUN: case GET_RUN_U64: case GET_RUN_AS: case GET_BOX: case GET_BOX_U64: return kind->element * head->c;
        default: return kind->element;
        }
    }
    if (head->nulls) {
        return 0;
    }
    answer = put(call, NULL, 0, &needed, &fault);
    if (head->op != TELL && head->op != BLOB_AT && answer != (needed ? LLY_NO_ROOM : LLY_DONE) && answer != LLY_NO_VIEW && answer != LLY_NO_PLACE && answer != LLY_TOO_BIG) {
        say(call, "a first call does not ask for room");
    }
    by = (size_t)llabs((long long)(int64_t)head->c);
    return kind->element * ((int64_t)head->c >= 0 ? needed + by : needed - (by < needed ? by : needed));
}

static int all_untouched(const uint8_t *bytes, size_t from, size_t to) {
    while (from < to && bytes[from] == UNTOUCHED) {
        from++;
    }
    return from >= to;
}

/* What is read by places is what the calls read that read one value. */
static void read_by_places(const struct call *call, const lly_places *places) {
    lly_view *view = &views[call->head.handle];
    const uint8_t *blob = NULL;
    size_t length = 0;
    uint64_t rows = 0, row, natural;
    int64_t whole;
    if (lly_blob_at(view, places->blob, &blob, &length) != LLY_DONE || lly_rows(view, &rows) != LLY_DONE || length != places->bytes) {
        say(call, "places of no blob");
        rows = 0;
    }
    for (row = 0; row < rows; row++) {
        if (lly_get(view, row, call->head.b, &whole) == LLY_DONE) {
            natural = (uint64_t)whole;
        } else if (lly_get_u64(view, row, call->head.b, &natural) != LLY_DONE) {
            say(call, "a leaf is of no type");
        }
        if ((uint64_t)lly_number(blob, places, row) != natural) {
            say(call, "a number is not where its places say");
            return;
        }
    }
}

/* What comes of a call, and the bytes of its answer in memory of their own. */
static struct answer done(const struct call *call, uint8_t **bytes) {
    const struct head *head = &call->head;
    struct answer is;
    lly_fault fault = {-7, 71, 72, 73};
    uint64_t value;
    const size_t size = size_for(call);
    size_t given = 0;
    memset(&value, UNTOUCHED, sizeof value);
    *bytes = room(size);
    memset(*bytes, UNTOUCHED, size);
    requests = 0;
    failed = 0;
    how = how_next;
    is.answer = made(call, *bytes, size, &value, &fault);
    how = NONE;
    if (is.answer == LLY_DONE) {
        given = kinds[head->op].needs ? kinds[head->op].element * value : size;
    }
    if (given > size || !all_untouched(*bytes, given, size)) {
        say(call, "bytes are written that are none of the answer");
        given = 0;
    }
    if (!kinds[head->op].takes_memory && requests) {
        say(call, "memory is taken");
    }
    if (head->op == PLACE && is.answer == LLY_DONE) {
        read_by_places(call, (const lly_places *)(const void *)*bytes);
    }
    is.cause = fault.cause;
    is.row = fault.row;
    is.leaf = fault.leaf;
    is.column = fault.column;
    is.value = value;
    is.size = given;
    return is;
}

/* ---- What a refused request may leave. */

/* The bytes of all blobs of all views, one behind the other, and how many they are. */
static uint8_t *all_blobs(size_t *size) {
    uint8_t *bytes = NULL;
    size_t handle, blob, blobs, needed, room_for = 0;
    int pass;
    for (pass = 0; pass < 2; pass++) {
        *size = 0;
        for (handle = 0; handle < HANDLES; handle++) {
            blobs = 0;
            lly_blobs(&views[handle], &blobs);
            for (blob = 0; blob < blobs; blob++) {
                lly_blob(&views[handle], blob, bytes ? bytes + *size : NULL, bytes ? room_for - *size : 0, &needed);
                *size += needed;
            }
        }
        if (!pass) {
            room_for = *size;
            bytes = room(room_for);
        }
    }
    return bytes;
}

static int is_no_memory(const struct answer *is, enum op op) {
    uint64_t value;
    const int tells = kinds[op].reports;
    memset(&value, UNTOUCHED, sizeof value);
    return is->answer == LLY_NO_MEMORY && is->value == value && is->cause == (tells ? 0 : -7) && is->row == (tells ? 0 : 71) && is->leaf == (tells ? 0 : 72) && is->column == (tells ? 0 : 73);
}

/* The call, each of its requests refused in turn, until none is or until it goes on without. */
static struct answer done_at_last(const struct call *call, uint8_t **bytes) {
    struct answer is;
    lly_view handles[HANDLES];
    uint8_t *before, *after;
    size_t size, size_after;
    long was_live;
    for (refused_from = 1;; refused_from++) {
        memcpy(handles, views, sizeof views);
        before = all_blobs(&size);
        was_live = live;
        how_next = call->head.refused == ON ? ON : ONCE;
        is = done(call, bytes);
        how_next = NONE;
        if (!failed || is.answer != LLY_NO_MEMORY) {
            __real_free(before);
            all_in_turn++;
            return is;
        }
        all_refused++;
        after = all_blobs(&size_after);
        if (!is_no_memory(&is, call->head.op)) {
            say(call, "what was handed is changed for want of memory");
        }
        if (size != size_after || memcmp(before, after, size) != 0) {
            say(call, "a view is changed for want of memory");
        }
        for (size = 0; size < HANDLES; size++) {
            if (handles[size].full != views[size].full) {
                say(call, "a handle is changed for want of memory");
            }
        }
        if (live != was_live) {
            say(call, "memory is kept or let go for want of memory");
        }
        __real_free(before);
        __real_free(after);
        __real_free(*bytes);
    }
}

/* ---- What is read and written. */

static int is_read(void *at, size_t size) { return fread(at, 1, size, stdin) == size; }

static void write_all(const void *at, size_t size) {
    if (fwrite(at, 1, size, stdout) != size) {
        exit(2);
    }
}

static int read_call(struct call *call) {
    int text, is_whole = is_read(&call->head, sizeof call->head);
    call->words = NULL;
    memset(call->texts, 0, sizeof call->texts);
    if (!is_whole) {
        return 0;
    }
    call->words = room(call->head.words * sizeof(uint64_t));
    is_whole = is_read(call->words, call->head.words * sizeof(uint64_t));
    for (text = 0; text < TEXTS; text++) {
        call->texts[text] = room(call->head.lengths[text]);
        is_whole = is_whole && is_read(call->texts[text], call->head.lengths[text]);
    }
    return is_whole && call->head.handle < HANDLES && (call->head.op != COPY || call->head.a < HANDLES);
}

static void drop_all(const struct call *call) {
    size_t handle;
    for (handle = 0; handle < HANDLES; handle++) {
        lly_drop(&views[handle]);
        if (views[handle].full) {
            say(call, "a handle is full after it was dropped");
        }
    }
    if (live) {
        say(call, "memory is live when no view is");
        live = 0;
    }
    sequence++;
    number = 0;
}

int main(void) {
    struct call call;
    struct answer is;
    uint8_t *bytes;
    int text;
    while (read_call(&call)) {
        if (call.head.op == END) {
            drop_all(&call);
        } else {
            is = call.head.refused ? done_at_last(&call, &bytes) : done(&call, &bytes);
            write_all(&is, sizeof is);
            write_all(bytes, is.size);
            __real_free(bytes);
            last = is;
            number++;
        }
        __real_free(call.words);
        for (text = 0; text < TEXTS; text++) {
            __real_free(call.texts[text]);
        }
    }
    fprintf(stderr, "%" PRIu64 " requests are refused, in %" PRIu64 " calls\n", all_refused, all_in_turn);
    return differs;
}
