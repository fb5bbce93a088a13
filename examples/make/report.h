/* Prints a table, the word that came most often first. */
#ifndef REPORT_H
#define REPORT_H

#include "table.h"

#include <stdio.h>

void report(const struct table *table, FILE *out);

/* A text that says how a word compares with the next. */
const char *rank_name(int rank);

#endif
