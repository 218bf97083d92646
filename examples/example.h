/* What the C examples share: an expectation that ends the program with 1 where it does not hold, lent buffers, and a list printed. */
#ifndef EXAMPLE_H
#define EXAMPLE_H

#include "../include/biss.h"

#include <stdio.h>
#include <stdlib.h>
#include <string.h>

static inline void expect(int holds, const char *what) {
    if (!holds) {
        fprintf(stderr, "not so: %s\n", what);
        exit(1);
    }
}

/* Buffers from the heap, exactly as long as is said, so that a memory checker sees every byte beside them. */
static inline uint8_t *lent(size_t length, uint8_t filled) {
    uint8_t *buffer = malloc(length);
    expect(buffer != NULL, "there is memory");
    memset(buffer, filled, length);
    return buffer;
}

static inline void print_list(const uint8_t *list, size_t entries) {
    size_t most = BISS_LIST_HEADER_BYTES + BISS_LIST_LINE_BYTES * entries;
    uint8_t *text = lent(most, 0);
    uint64_t bytes = biss_list_to_text(list, BISS_ENTRY_BYTES * entries, text, most);
    expect(!biss_is_refused(bytes), "a list that was read can be printed");
    fwrite(text, 1, bytes, stdout);
    free(text);
}

#endif
