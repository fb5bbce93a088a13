/* Cuts a text into words. */
#ifndef WORDS_H
#define WORDS_H

#include "table.h"

/* Counts each word of `text`. Answers 0, or -1 where there is no memory. */
int count_words(struct table *table, const char *text, size_t length);

#endif
