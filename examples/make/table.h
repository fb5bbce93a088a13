/* How often each word came. */
#ifndef TABLE_H
#define TABLE_H

#include <stddef.h>

struct entry {
    char *word;
    unsigned long count;
};

struct table {
    struct entry *entries;
    size_t used;
    size_t capacity;
};

void table_init(struct table *table);
void table_free(struct table *table);

/* Counts a word of `length` bytes once more. Answers 0, or -1 where there is no memory. */
int table_add(struct table *table, const char *word, size_t length);

/* How often the word came. */
unsigned long table_count(const struct table *table, const char *word);

#endif
