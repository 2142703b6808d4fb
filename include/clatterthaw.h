/* The sparse matrix store under a RaptorQ solver, for C: a head by value, and buffers that the caller lends. No heap, no other library.
 *
 * Every function is total: any head, any numbers, any lengths. It checks the store itself, and answers or refuses by number; refused, it has changed
 * nothing. What it asks of the caller is what C asks: each pointer leads to as many elements as its length says, is not null (even for length 0), and no
 * buffer that is written overlaps another.
 *
 * The head goes with its buffers: hand each call the head last handed back, over the same buffers. struct clatterthaw_store below keeps them together.
 * Link with target/staticlib/libclatterthaw_host.a (x86-64). */
#ifndef CLATTERTHAW_H
#define CLATTERTHAW_H

#include <stddef.h>
#include <stdint.h>

#ifdef __cplusplus
extern "C" {
#endif

/* The numbered refusals; 0 is none. */
enum clatterthaw_refusal {
    CLATTERTHAW_OK = 0,
    CLATTERTHAW_DAMAGED = 1,  /* the store is not well-formed (all but MAKE) */
    CLATTERTHAW_SIZE = 2,     /* MAKE outside the limits */
    CLATTERTHAW_BUFFERS = 3,  /* MAKE, and a buffer is too short */
    CLATTERTHAW_ROW = 4,      /* a row past the height */
    CLATTERTHAW_COLUMN = 5,   /* a column past the width */
    CLATTERTHAW_SIDE = 6,     /* a column or an edge on the wrong side of the tail */
    CLATTERTHAW_SAME = 7,     /* ADD of a row to itself */
    CLATTERTHAW_SHRINK = 8,   /* RESIZE that grows, or drops a part of the tail */
    CLATTERTHAW_PHASE = 9,    /* index on: RESIZE, SET in a sparse column; index off: FREEZE, COLONES */
    CLATTERTHAW_SINGLE = 10,  /* ADD from 0 with the index on: not exactly one sparse one in the source, or row d lacks it */
    CLATTERTHAW_SPENT = 11,   /* COLONES of a column whose list is spent */
    CLATTERTHAW_SLOTS = 12,   /* no slot left in the row */
    CLATTERTHAW_WORDS = 13,   /* no tail words left */
    CLATTERTHAW_ENTRIES = 14, /* no index entries left */
    CLATTERTHAW_ANSWER = 15,  /* the list is longer than the answer buffer */
    CLATTERTHAW_RECORD = 16,  /* in a run's lines: unknown tag, or wrong length for it */
    CLATTERTHAW_CUT = 17      /* in a run's lines: the script ends inside a record */
};

/* The limits of a head's numbers. */
#define CLATTERTHAW_MAX_HEIGHT 65535u
#define CLATTERTHAW_MAX_WIDTH 65535u
#define CLATTERTHAW_MAX_SLOTS 65535u

/* A head: height, width, tail, slots for each row, width at making, and the index switch, 0 or 1. All zero is the head of the 0 by 0 store. */
struct clatterthaw_head {
    uint32_t h, w, n, slots, made, on;
};

/* What a change leaves: the new head and 0, or the head as it was and the number of the refusal. */
struct clatterthaw_changed {
    struct clatterthaw_head head;
    uint32_t no;
};

/* A number: no is 0, or the number of the refusal. */
struct clatterthaw_number {
    uint32_t no, value;
};

/* Height, width and tail. */
struct clatterthaw_size_answer {
    uint32_t no, h, w, n;
};

/* A list: the first count answer places hold it. */
struct clatterthaw_list {
    uint32_t no, count;
};

/* A row's tail words: count of them, from words[start] on. */
struct clatterthaw_words_answer {
    uint32_t no, count;
    size_t start;
};

/* What a run leaves: the head, how many record bytes are done and line bytes written; or 1, the head as it was, and nothing done. */
struct clatterthaw_ran {
    struct clatterthaw_head head;
    uint32_t no;
    size_t done, written;
};

/* MAKE: an h by w matrix whose last n columns are the tail, all zero, with per_row slots for each row. It asks for no store before it. Refuses with 2, 3. */
struct clatterthaw_changed clatterthaw_make(
    struct clatterthaw_head p,
    uint16_t *slots, size_t slots_len,
    uint16_t *counts, size_t counts_len,
    uint32_t *row_homes, size_t row_homes_len,
    uint32_t *row_logicals, size_t row_logicals_len,
    uint16_t *column_homes, size_t column_homes_len,
    uint16_t *column_logicals, size_t column_logicals_len,
    uint8_t *marks, size_t marks_len,
    uint64_t *starts, size_t starts_len,
    uint32_t *entries, size_t entries_len,
    uint64_t *words, size_t words_len,
    uint32_t h, uint32_t w, uint32_t n, uint32_t per_row);

/* SET: the cell in row r and column c becomes one, or zero where v is 0. Refuses with 1, 4, 5, 9, 12. */
struct clatterthaw_changed clatterthaw_set(
    struct clatterthaw_head p,
    uint16_t *slots, size_t slots_len,
    uint16_t *counts, size_t counts_len,
    const uint32_t *row_homes, size_t row_homes_len,
    const uint32_t *row_logicals, size_t row_logicals_len,
    const uint16_t *column_homes, size_t column_homes_len,
    const uint16_t *column_logicals, size_t column_logicals_len,
    const uint8_t *marks, size_t marks_len,
    const uint64_t *starts, size_t starts_len,
    const uint32_t *entries, size_t entries_len,
    uint64_t *words, size_t words_len,
    uint32_t r, uint32_t c, uint8_t v);

/* SWAPR: rows i and j are exchanged. Refuses with 1, 4. */
struct clatterthaw_changed clatterthaw_swap_rows(
    struct clatterthaw_head p,
    const uint16_t *slots, size_t slots_len,
    const uint16_t *counts, size_t counts_len,
    uint32_t *row_homes, size_t row_homes_len,
    uint32_t *row_logicals, size_t row_logicals_len,
    const uint16_t *column_homes, size_t column_homes_len,
    const uint16_t *column_logicals, size_t column_logicals_len,
    const uint8_t *marks, size_t marks_len,
    const uint64_t *starts, size_t starts_len,
    const uint32_t *entries, size_t entries_len,
    const uint64_t *words, size_t words_len,
    uint32_t i, uint32_t j);

/* SWAPC: sparse columns i and j are exchanged. Refuses with 1, 5, 6. */
struct clatterthaw_changed clatterthaw_swap_columns(
    struct clatterthaw_head p,
    const uint16_t *slots, size_t slots_len,
    const uint16_t *counts, size_t counts_len,
    const uint32_t *row_homes, size_t row_homes_len,
    const uint32_t *row_logicals, size_t row_logicals_len,
    uint16_t *column_homes, size_t column_homes_len,
    uint16_t *column_logicals, size_t column_logicals_len,
    const uint8_t *marks, size_t marks_len,
    const uint64_t *starts, size_t starts_len,
    const uint32_t *entries, size_t entries_len,
    const uint64_t *words, size_t words_len,
    uint32_t i, uint32_t j);

/* ADD: row s is added to row d, in all columns where start is 0, in the tail alone where start is the first tail column. Refuses with 1, 4, 6, 7, 10, 12. */
struct clatterthaw_changed clatterthaw_add(
    struct clatterthaw_head p,
    uint16_t *slots, size_t slots_len,
    uint16_t *counts, size_t counts_len,
    const uint32_t *row_homes, size_t row_homes_len,
    const uint32_t *row_logicals, size_t row_logicals_len,
    const uint16_t *column_homes, size_t column_homes_len,
    const uint16_t *column_logicals, size_t column_logicals_len,
    uint8_t *marks, size_t marks_len,
    const uint64_t *starts, size_t starts_len,
    const uint32_t *entries, size_t entries_len,
    uint64_t *words, size_t words_len,
    uint32_t d, uint32_t s, uint32_t start);

/* ON: the column index is built. Refuses with 1, 14. */
struct clatterthaw_changed clatterthaw_on(
    struct clatterthaw_head p,
    const uint16_t *slots, size_t slots_len,
    const uint16_t *counts, size_t counts_len,
    const uint32_t *row_homes, size_t row_homes_len,
    const uint32_t *row_logicals, size_t row_logicals_len,
    const uint16_t *column_homes, size_t column_homes_len,
    const uint16_t *column_logicals, size_t column_logicals_len,
    uint8_t *marks, size_t marks_len,
    uint64_t *starts, size_t starts_len,
    uint32_t *entries, size_t entries_len,
    const uint64_t *words, size_t words_len);

/* OFF: the column index is dropped. Refuses with 1. */
struct clatterthaw_changed clatterthaw_off(
    struct clatterthaw_head p,
    const uint16_t *slots, size_t slots_len,
    const uint16_t *counts, size_t counts_len,
    const uint32_t *row_homes, size_t row_homes_len,
    const uint32_t *row_logicals, size_t row_logicals_len,
    const uint16_t *column_homes, size_t column_homes_len,
    const uint16_t *column_logicals, size_t column_logicals_len,
    uint8_t *marks, size_t marks_len,
    uint64_t *starts, size_t starts_len,
    uint32_t *entries, size_t entries_len,
    const uint64_t *words, size_t words_len);

/* FREEZE: column c, the last sparse one, becomes the first of the tail. Refuses with 1, 5, 6, 9, 13. */
struct clatterthaw_changed clatterthaw_freeze(
    struct clatterthaw_head p,
    uint16_t *slots, size_t slots_len,
    uint16_t *counts, size_t counts_len,
    const uint32_t *row_homes, size_t row_homes_len,
    const uint32_t *row_logicals, size_t row_logicals_len,
    const uint16_t *column_homes, size_t column_homes_len,
    const uint16_t *column_logicals, size_t column_logicals_len,
    const uint8_t *marks, size_t marks_len,
    const uint64_t *starts, size_t starts_len,
    const uint32_t *entries, size_t entries_len,
    uint64_t *words, size_t words_len,
    uint32_t c);

/* RESIZE: the matrix shrinks to h by w. Refuses with 1, 8, 9. */
struct clatterthaw_changed clatterthaw_resize(
    struct clatterthaw_head p,
    uint16_t *slots, size_t slots_len,
    uint16_t *counts, size_t counts_len,
    uint32_t *row_homes, size_t row_homes_len,
    uint32_t *row_logicals, size_t row_logicals_len,
    const uint16_t *column_homes, size_t column_homes_len,
    const uint16_t *column_logicals, size_t column_logicals_len,
    const uint8_t *marks, size_t marks_len,
    const uint64_t *starts, size_t starts_len,
    const uint32_t *entries, size_t entries_len,
    uint64_t *words, size_t words_len,
    uint32_t h, uint32_t w);

/* SIZE: height, width and tail. Refuses with 1. */
struct clatterthaw_size_answer clatterthaw_size(
    struct clatterthaw_head p,
    const uint16_t *slots, size_t slots_len,
    const uint16_t *counts, size_t counts_len,
    const uint32_t *row_homes, size_t row_homes_len,
    const uint32_t *row_logicals, size_t row_logicals_len,
    const uint16_t *column_homes, size_t column_homes_len,
    const uint16_t *column_logicals, size_t column_logicals_len,
    const uint8_t *marks, size_t marks_len,
    const uint64_t *starts, size_t starts_len,
    const uint32_t *entries, size_t entries_len,
    const uint64_t *words, size_t words_len);

/* GET: the bit in row r and column c. Refuses with 1, 4, 5. */
struct clatterthaw_number clatterthaw_get(
    struct clatterthaw_head p,
    const uint16_t *slots, size_t slots_len,
    const uint16_t *counts, size_t counts_len,
    const uint32_t *row_homes, size_t row_homes_len,
    const uint32_t *row_logicals, size_t row_logicals_len,
    const uint16_t *column_homes, size_t column_homes_len,
    const uint16_t *column_logicals, size_t column_logicals_len,
    const uint8_t *marks, size_t marks_len,
    const uint64_t *starts, size_t starts_len,
    const uint32_t *entries, size_t entries_len,
    const uint64_t *words, size_t words_len,
    uint32_t r, uint32_t c);

/* COUNT: how many of the sparse columns a to b-1 hold one in row r. Refuses with 1, 4, 6. */
struct clatterthaw_number clatterthaw_count(
    struct clatterthaw_head p,
    const uint16_t *slots, size_t slots_len,
    const uint16_t *counts, size_t counts_len,
    const uint32_t *row_homes, size_t row_homes_len,
    const uint32_t *row_logicals, size_t row_logicals_len,
    const uint16_t *column_homes, size_t column_homes_len,
    const uint16_t *column_logicals, size_t column_logicals_len,
    const uint8_t *marks, size_t marks_len,
    const uint64_t *starts, size_t starts_len,
    const uint32_t *entries, size_t entries_len,
    const uint64_t *words, size_t words_len,
    uint32_t r, uint32_t a, uint32_t b);

/* ITER: the sparse columns a to b-1 that hold one in row r, by rising home number, in the first answer places. Refuses with 1, 4, 6, 15. */
struct clatterthaw_list clatterthaw_iter(
    struct clatterthaw_head p,
    const uint16_t *slots, size_t slots_len,
    const uint16_t *counts, size_t counts_len,
    const uint32_t *row_homes, size_t row_homes_len,
    const uint32_t *row_logicals, size_t row_logicals_len,
    const uint16_t *column_homes, size_t column_homes_len,
    const uint16_t *column_logicals, size_t column_logicals_len,
    const uint8_t *marks, size_t marks_len,
    const uint64_t *starts, size_t starts_len,
    const uint32_t *entries, size_t entries_len,
    const uint64_t *words, size_t words_len,
    uint32_t *answers, size_t answers_len,
    uint32_t r, uint32_t a, uint32_t b);

/* TAILONES: the tail columns that hold one in row r, in the first answer places; a is the first tail column. Refuses with 1, 4, 6, 15. */
struct clatterthaw_list clatterthaw_tail_ones(
    struct clatterthaw_head p,
    const uint16_t *slots, size_t slots_len,
    const uint16_t *counts, size_t counts_len,
    const uint32_t *row_homes, size_t row_homes_len,
    const uint32_t *row_logicals, size_t row_logicals_len,
    const uint16_t *column_homes, size_t column_homes_len,
    const uint16_t *column_logicals, size_t column_logicals_len,
    const uint8_t *marks, size_t marks_len,
    const uint64_t *starts, size_t starts_len,
    const uint32_t *entries, size_t entries_len,
    const uint64_t *words, size_t words_len,
    uint32_t *answers, size_t answers_len,
    uint32_t r, uint32_t a);

/* COLONES: the rows a to b-1 that hold one in sparse column c, in the first answer places. Refuses with 1, 5, 6, 9, 11, 15. */
struct clatterthaw_list clatterthaw_column_ones(
    struct clatterthaw_head p,
    const uint16_t *slots, size_t slots_len,
    const uint16_t *counts, size_t counts_len,
    const uint32_t *row_homes, size_t row_homes_len,
    const uint32_t *row_logicals, size_t row_logicals_len,
    const uint16_t *column_homes, size_t column_homes_len,
    const uint16_t *column_logicals, size_t column_logicals_len,
    const uint8_t *marks, size_t marks_len,
    const uint64_t *starts, size_t starts_len,
    const uint32_t *entries, size_t entries_len,
    const uint64_t *words, size_t words_len,
    uint32_t *answers, size_t answers_len,
    uint32_t c, uint32_t a, uint32_t b);

/* WORDS: where the words of the tail of row r stand among the lent words; a is the first tail column. Refuses with 1, 4, 6. */
struct clatterthaw_words_answer clatterthaw_words(
    struct clatterthaw_head p,
    const uint16_t *slots, size_t slots_len,
    const uint16_t *counts, size_t counts_len,
    const uint32_t *row_homes, size_t row_homes_len,
    const uint32_t *row_logicals, size_t row_logicals_len,
    const uint16_t *column_homes, size_t column_homes_len,
    const uint16_t *column_logicals, size_t column_logicals_len,
    const uint8_t *marks, size_t marks_len,
    const uint64_t *starts, size_t starts_len,
    const uint32_t *entries, size_t entries_len,
    const uint64_t *words, size_t words_len,
    uint32_t r, uint32_t a);

/* The run: script records over the store, a line for each into lines. It checks the store once and refuses a damaged one with 1; any other refusal is a line,
 * and the run goes on. It stops before the first record whose line would not fit whole: call it again with records + done. */
struct clatterthaw_ran clatterthaw_run(
    struct clatterthaw_head p,
    uint16_t *slots, size_t slots_len,
    uint16_t *counts, size_t counts_len,
    uint32_t *row_homes, size_t row_homes_len,
    uint32_t *row_logicals, size_t row_logicals_len,
    uint16_t *column_homes, size_t column_homes_len,
    uint16_t *column_logicals, size_t column_logicals_len,
    uint8_t *marks, size_t marks_len,
    uint64_t *starts, size_t starts_len,
    uint32_t *entries, size_t entries_len,
    uint64_t *words, size_t words_len,
    uint32_t *answers, size_t answers_len,
    const uint8_t *records, size_t records_len,
    uint8_t *lines, size_t lines_len);

/* ---- a head and its buffers, kept together */

/* Set each pointer and length once, the head to all zero, and call nothing else over these buffers. */
struct clatterthaw_store {
    struct clatterthaw_head head;
    uint16_t *slots;
    size_t slots_len;
    uint16_t *counts;
    size_t counts_len;
    uint32_t *row_homes;
    size_t row_homes_len;
    uint32_t *row_logicals;
    size_t row_logicals_len;
    uint16_t *column_homes;
    size_t column_homes_len;
    uint16_t *column_logicals;
    size_t column_logicals_len;
    uint8_t *marks;
    size_t marks_len;
    uint64_t *starts;
    size_t starts_len;
    uint32_t *entries;
    size_t entries_len;
    uint64_t *words;
    size_t words_len;
};

/* Each returns the number of the refusal, 0 for none, and keeps the head. */
static inline uint32_t clatterthaw_store_make(struct clatterthaw_store *m, uint32_t h, uint32_t w, uint32_t n, uint32_t per_row) {
    struct clatterthaw_changed x = clatterthaw_make(m->head,
        m->slots, m->slots_len,
        m->counts, m->counts_len,
        m->row_homes, m->row_homes_len,
        m->row_logicals, m->row_logicals_len,
        m->column_homes, m->column_homes_len,
        m->column_logicals, m->column_logicals_len,
        m->marks, m->marks_len,
        m->starts, m->starts_len,
        m->entries, m->entries_len,
        m->words, m->words_len,
        h, w, n, per_row);
    m->head = x.head;
    return x.no;
}

static inline uint32_t clatterthaw_store_set(struct clatterthaw_store *m, uint32_t r, uint32_t c, uint8_t v) {
    struct clatterthaw_changed x = clatterthaw_set(m->head,
        m->slots, m->slots_len,
        m->counts, m->counts_len,
        m->row_homes, m->row_homes_len,
        m->row_logicals, m->row_logicals_len,
        m->column_homes, m->column_homes_len,
        m->column_logicals, m->column_logicals_len,
        m->marks, m->marks_len,
        m->starts, m->starts_len,
        m->entries, m->entries_len,
        m->words, m->words_len,
        r, c, v);
    m->head = x.head;
    return x.no;
}

static inline uint32_t clatterthaw_store_swap_rows(struct clatterthaw_store *m, uint32_t i, uint32_t j) {
    struct clatterthaw_changed x = clatterthaw_swap_rows(m->head,
        m->slots, m->slots_len,
        m->counts, m->counts_len,
        m->row_homes, m->row_homes_len,
        m->row_logicals, m->row_logicals_len,
        m->column_homes, m->column_homes_len,
        m->column_logicals, m->column_logicals_len,
        m->marks, m->marks_len,
        m->starts, m->starts_len,
        m->entries, m->entries_len,
        m->words, m->words_len,
        i, j);
    m->head = x.head;
    return x.no;
}

static inline uint32_t clatterthaw_store_swap_columns(struct clatterthaw_store *m, uint32_t i, uint32_t j) {
    struct clatterthaw_changed x = clatterthaw_swap_columns(m->head,
        m->slots, m->slots_len,
        m->counts, m->counts_len,
        m->row_homes, m->row_homes_len,
        m->row_logicals, m->row_logicals_len,
        m->column_homes, m->column_homes_len,
        m->column_logicals, m->column_logicals_len,
        m->marks, m->marks_len,
        m->starts, m->starts_len,
        m->entries, m->entries_len,
        m->words, m->words_len,
        i, j);
    m->head = x.head;
    return x.no;
}

static inline uint32_t clatterthaw_store_add(struct clatterthaw_store *m, uint32_t d, uint32_t s, uint32_t start) {
    struct clatterthaw_changed x = clatterthaw_add(m->head,
        m->slots, m->slots_len,
        m->counts, m->counts_len,
        m->row_homes, m->row_homes_len,
        m->row_logicals, m->row_logicals_len,
        m->column_homes, m->column_homes_len,
        m->column_logicals, m->column_logicals_len,
        m->marks, m->marks_len,
        m->starts, m->starts_len,
        m->entries, m->entries_len,
        m->words, m->words_len,
        d, s, start);
    m->head = x.head;
    return x.no;
}

static inline uint32_t clatterthaw_store_on(struct clatterthaw_store *m) {
    struct clatterthaw_changed x = clatterthaw_on(m->head,
        m->slots, m->slots_len,
        m->counts, m->counts_len,
        m->row_homes, m->row_homes_len,
        m->row_logicals, m->row_logicals_len,
        m->column_homes, m->column_homes_len,
        m->column_logicals, m->column_logicals_len,
        m->marks, m->marks_len,
        m->starts, m->starts_len,
        m->entries, m->entries_len,
        m->words, m->words_len);
    m->head = x.head;
    return x.no;
}

static inline uint32_t clatterthaw_store_off(struct clatterthaw_store *m) {
    struct clatterthaw_changed x = clatterthaw_off(m->head,
        m->slots, m->slots_len,
        m->counts, m->counts_len,
        m->row_homes, m->row_homes_len,
        m->row_logicals, m->row_logicals_len,
        m->column_homes, m->column_homes_len,
        m->column_logicals, m->column_logicals_len,
        m->marks, m->marks_len,
        m->starts, m->starts_len,
        m->entries, m->entries_len,
        m->words, m->words_len);
    m->head = x.head;
    return x.no;
}

static inline uint32_t clatterthaw_store_freeze(struct clatterthaw_store *m, uint32_t c) {
    struct clatterthaw_changed x = clatterthaw_freeze(m->head,
        m->slots, m->slots_len,
        m->counts, m->counts_len,
        m->row_homes, m->row_homes_len,
        m->row_logicals, m->row_logicals_len,
        m->column_homes, m->column_homes_len,
        m->column_logicals, m->column_logicals_len,
        m->marks, m->marks_len,
        m->starts, m->starts_len,
        m->entries, m->entries_len,
        m->words, m->words_len,
        c);
    m->head = x.head;
    return x.no;
}

static inline uint32_t clatterthaw_store_resize(struct clatterthaw_store *m, uint32_t h, uint32_t w) {
    struct clatterthaw_changed x = clatterthaw_resize(m->head,
        m->slots, m->slots_len,
        m->counts, m->counts_len,
        m->row_homes, m->row_homes_len,
        m->row_logicals, m->row_logicals_len,
        m->column_homes, m->column_homes_len,
        m->column_logicals, m->column_logicals_len,
        m->marks, m->marks_len,
        m->starts, m->starts_len,
        m->entries, m->entries_len,
        m->words, m->words_len,
        h, w);
    m->head = x.head;
    return x.no;
}

/* Each answers as the function that it calls. */
static inline struct clatterthaw_size_answer clatterthaw_store_size(const struct clatterthaw_store *m) {
    return clatterthaw_size(m->head,
        m->slots, m->slots_len,
        m->counts, m->counts_len,
        m->row_homes, m->row_homes_len,
        m->row_logicals, m->row_logicals_len,
        m->column_homes, m->column_homes_len,
        m->column_logicals, m->column_logicals_len,
        m->marks, m->marks_len,
        m->starts, m->starts_len,
        m->entries, m->entries_len,
        m->words, m->words_len);
}

static inline struct clatterthaw_number clatterthaw_store_get(const struct clatterthaw_store *m, uint32_t r, uint32_t c) {
    return clatterthaw_get(m->head,
        m->slots, m->slots_len,
        m->counts, m->counts_len,
        m->row_homes, m->row_homes_len,
        m->row_logicals, m->row_logicals_len,
        m->column_homes, m->column_homes_len,
        m->column_logicals, m->column_logicals_len,
        m->marks, m->marks_len,
        m->starts, m->starts_len,
        m->entries, m->entries_len,
        m->words, m->words_len,
        r, c);
}

static inline struct clatterthaw_number clatterthaw_store_count(const struct clatterthaw_store *m, uint32_t r, uint32_t a, uint32_t b) {
    return clatterthaw_count(m->head,
        m->slots, m->slots_len,
        m->counts, m->counts_len,
        m->row_homes, m->row_homes_len,
        m->row_logicals, m->row_logicals_len,
        m->column_homes, m->column_homes_len,
        m->column_logicals, m->column_logicals_len,
        m->marks, m->marks_len,
        m->starts, m->starts_len,
        m->entries, m->entries_len,
        m->words, m->words_len,
        r, a, b);
}

static inline struct clatterthaw_list clatterthaw_store_iter(const struct clatterthaw_store *m, uint32_t *answers, size_t answers_len, uint32_t r, uint32_t a, uint32_t b) {
    return clatterthaw_iter(m->head,
        m->slots, m->slots_len,
        m->counts, m->counts_len,
        m->row_homes, m->row_homes_len,
        m->row_logicals, m->row_logicals_len,
        m->column_homes, m->column_homes_len,
        m->column_logicals, m->column_logicals_len,
        m->marks, m->marks_len,
        m->starts, m->starts_len,
        m->entries, m->entries_len,
        m->words, m->words_len,
        answers, answers_len,
        r, a, b);
}

static inline struct clatterthaw_list clatterthaw_store_tail_ones(const struct clatterthaw_store *m, uint32_t *answers, size_t answers_len, uint32_t r, uint32_t a) {
    return clatterthaw_tail_ones(m->head,
        m->slots, m->slots_len,
        m->counts, m->counts_len,
        m->row_homes, m->row_homes_len,
        m->row_logicals, m->row_logicals_len,
        m->column_homes, m->column_homes_len,
        m->column_logicals, m->column_logicals_len,
        m->marks, m->marks_len,
        m->starts, m->starts_len,
        m->entries, m->entries_len,
        m->words, m->words_len,
        answers, answers_len,
        r, a);
}

static inline struct clatterthaw_list clatterthaw_store_column_ones(const struct clatterthaw_store *m, uint32_t *answers, size_t answers_len, uint32_t c, uint32_t a, uint32_t b) {
    return clatterthaw_column_ones(m->head,
        m->slots, m->slots_len,
        m->counts, m->counts_len,
        m->row_homes, m->row_homes_len,
        m->row_logicals, m->row_logicals_len,
        m->column_homes, m->column_homes_len,
        m->column_logicals, m->column_logicals_len,
        m->marks, m->marks_len,
        m->starts, m->starts_len,
        m->entries, m->entries_len,
        m->words, m->words_len,
        answers, answers_len,
        c, a, b);
}

static inline struct clatterthaw_words_answer clatterthaw_store_words(const struct clatterthaw_store *m, uint32_t r, uint32_t a) {
    return clatterthaw_words(m->head,
        m->slots, m->slots_len,
        m->counts, m->counts_len,
        m->row_homes, m->row_homes_len,
        m->row_logicals, m->row_logicals_len,
        m->column_homes, m->column_homes_len,
        m->column_logicals, m->column_logicals_len,
        m->marks, m->marks_len,
        m->starts, m->starts_len,
        m->entries, m->entries_len,
        m->words, m->words_len,
        r, a);
}

/* A run over the store, which keeps the head. */
static inline struct clatterthaw_ran clatterthaw_store_run(struct clatterthaw_store *m, uint32_t *answers, size_t answers_len,
    const uint8_t *records, size_t records_len, uint8_t *lines, size_t lines_len) {
    struct clatterthaw_ran x = clatterthaw_run(m->head,
        m->slots, m->slots_len,
        m->counts, m->counts_len,
        m->row_homes, m->row_homes_len,
        m->row_logicals, m->row_logicals_len,
        m->column_homes, m->column_homes_len,
        m->column_logicals, m->column_logicals_len,
        m->marks, m->marks_len,
        m->starts, m->starts_len,
        m->entries, m->entries_len,
        m->words, m->words_len,
        answers, answers_len, records, records_len, lines, lines_len);
    m->head = x.head;
    return x;
}

#ifdef __cplusplus
}
#endif

#endif
