/* A small elimination over the store, from C: three equations in three unknowns and a right-hand side, brought to the identity. The right-hand side is the
 * tail, so that what is done to a row is done to its side too. The buffers are arrays: there is no heap. */
#include <inttypes.h>
#include <stdio.h>
#include <stdlib.h>

#include "clatterthaw.h"

enum { ROWS = 3, COLUMNS = 4, SLOTS = 4, WORDS = 3, ENTRIES = 12 };

static uint16_t slots[ROWS * SLOTS], counts[ROWS], column_homes[COLUMNS], column_logicals[COLUMNS];
static uint32_t row_homes[ROWS], row_logicals[ROWS], entries[ENTRIES];
static uint8_t marks[COLUMNS];
static uint64_t starts[COLUMNS + 1], words[WORDS];

/* Ends the program where a call is refused that must not be. */
static void must(uint32_t no, const char *what) {
    if (no != CLATTERTHAW_OK) {
        fprintf(stderr, "%s: refused with %" PRIu32 "\n", what, no);
        exit(1);
    }
}

/* One row a line, the tail after a bar. */
static void show(const struct clatterthaw_store *s, const char *title) {
    printf("%s\n", title);
    struct clatterthaw_size_answer size = clatterthaw_store_size(s);
    must(size.no, "SIZE");
    for (uint32_t r = 0; r < size.h; r++) {
        for (uint32_t c = 0; c < size.w; c++) {
            struct clatterthaw_number bit = clatterthaw_store_get(s, r, c);
            must(bit.no, "GET");
            printf("%s%" PRIu32, c == size.w - size.n ? " | " : c == 0 ? "  " : " ", bit.value);
        }
        printf("\n");
    }
}

int main(void) {
    struct clatterthaw_store s = {
        .slots = slots, .slots_len = ROWS * SLOTS,
        .counts = counts, .counts_len = ROWS,
        .row_homes = row_homes, .row_homes_len = ROWS,
        .row_logicals = row_logicals, .row_logicals_len = ROWS,
        .column_homes = column_homes, .column_homes_len = COLUMNS,
        .column_logicals = column_logicals, .column_logicals_len = COLUMNS,
        .marks = marks, .marks_len = COLUMNS,
        .starts = starts, .starts_len = COLUMNS + 1,
        .entries = entries, .entries_len = ENTRIES,
        .words = words, .words_len = WORDS,
    };
    static const uint8_t cells[ROWS][COLUMNS] = {{0, 1, 1, 1}, {1, 1, 0, 0}, {1, 1, 1, 1}};

    must(clatterthaw_store_make(&s, ROWS, COLUMNS, 1, SLOTS), "MAKE");
    for (uint32_t r = 0; r < ROWS; r++)
        for (uint32_t c = 0; c < COLUMNS; c++)
            if (cells[r][c])
                must(clatterthaw_store_set(&s, r, c, 1), "SET");
    show(&s, "three equations:");

    for (uint32_t c = 0; c + 1 < COLUMNS; c++) {
        uint32_t r = c;
        while (r < ROWS && clatterthaw_store_get(&s, r, c).value == 0)
            r++;
        if (r == ROWS) {
            printf("no row left for column %" PRIu32 "\n", c);
            return 1;
        }
        must(clatterthaw_store_swap_rows(&s, r, c), "SWAPR");
        for (uint32_t d = 0; d < ROWS; d++)
            if (d != c && clatterthaw_store_get(&s, d, c).value == 1)
                must(clatterthaw_store_add(&s, d, c, 0), "ADD");
    }
    show(&s, "solved:");

    /* a refusal is a number, and changes nothing */
    printf("row 3 of three: refused with %" PRIu32 "\n", clatterthaw_store_set(&s, 3, 0, 1));
    marks[0] = 9;
    printf("a damaged store: refused with %" PRIu32 "\n", clatterthaw_store_set(&s, 0, 0, 1));
    return 0;
}
